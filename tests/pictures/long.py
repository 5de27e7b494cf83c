"""Makes a script of some thousand steps: many buffers and textures, with layers that are used apart, passes that discard, releases and
faults."""

import json
import random

BUFFERS, TEXTURES, LAYERS = 24, 6, 16
SIZE = 4096


class Long:
    """A script that grows call by call; `operations` counts what was queued."""

    def __init__(self, seed):
        self.random = random.Random(seed)
        self.calls = []
        self.operations = 0
        self.made = 0

    def call(self, word, **keys):
        self.calls.append({"do": word, **keys})
        self.operations += word in ("writeBuffer", "writeTexture", "submit")

    def name(self, stem):
        """A new name; each seventh is as long as a name may be."""
        self.made += 1
        return f"{stem}_{self.made}".ljust(64 if self.made % 7 == 0 else 1, "x")

    def buffer(self):
        name = self.name("buffer")
        self.call("createBuffer", size=SIZE, usage=12, **{"as": name})
        return name

    def resources(self):
        self.buffers = [self.buffer() for _ in range(BUFFERS)]
        self.textures = [self.name("texture") for _ in range(TEXTURES)]
        for name in self.textures:
            self.call("createTexture", size=[16, 16, LAYERS], usage=3, format="rgba8unorm", mips=3, **{"as": name})
        self.call("createTexture", size=[16, 16, 1], usage=17, format="depth24plus-stencil8", **{"as": "depth"})
        self.call("createView", texture="depth", **{"as": "depth_view"})
        self.call("createBuffer", size=2**20, usage=8, **{"as": "read_back"})

    def write(self):
        self.call("writeBuffer", buffer=self.random.choice(self.buffers), offset=4 * self.random.randrange(512), size=64)

    def write_layers(self, texture):
        """Writes every other layer of a mip level, so that each has barriers of its own, and reads all of it."""
        mip = self.random.randrange(3)
        wide = 16 >> mip
        for layer in range(self.random.randrange(2), LAYERS, 2):
            self.call(
                "writeTexture",
                texture=texture,
                mip=mip,
                origin=[0, 0, layer],
                size=[wide, wide, 1],
                bytesPerRow=4 * wide,
                dataSize=4 * wide * wide,
            )
        return {
            "texture": texture,
            "mip": mip,
            "size": [wide, wide, LAYERS],
            "bytesPerRow": 256,
            "rowsPerImage": wide,
            "buffer": "read_back",
        }

    def copies(self, encoder):
        for _ in range(self.random.randint(1, 3)):
            source, target = self.random.sample(self.buffers, 2)
            at = 4 * self.random.randrange(512)
            self.call("copyBufferToBuffer", on=encoder, source=source, sourceOffset=at, target=target, targetOffset=at, size=128)

    def render_pass(self, encoder):
        """A pass that keeps the depth or discards it, and the stencil likewise."""
        name, load, store = self.name("pass"), self.random.choice(["load", "clear"]), self.random.choice(["store", "discard"])
        depth = {"view": "depth_view", "depthLoad": load, "depthStore": store, "stencilLoad": "load", "stencilStore": "discard"}
        self.call("beginRenderPass", on=encoder, colors=[], depth=depth, **{"as": name})
        self.call("end", on=name)

    def round(self, number):
        copy = self.write_layers(self.random.choice(self.textures)) if number % 25 == 0 else None
        self.write()
        encoder, commands = self.name("encoder"), self.name("commands")
        self.call("createEncoder", **{"as": encoder})
        self.copies(encoder)
        if copy:
            self.call("copyTextureToBuffer", on=encoder, **copy)
        if number % 10 == 0:
            self.render_pass(encoder)
        self.call("finish", on=encoder, **{"as": commands})
        self.call("submit", buffers=[commands])
        if number % 40 == 0:
            self.replace()

    def replace(self):
        """Gives a buffer back, writes to it once more, which is a fault, and makes another in its place."""
        at = self.random.randrange(BUFFERS)
        self.call("complete", op=self.operations)
        self.call("destroy", object=self.buffers[at])
        self.calls.append({"do": "writeBuffer", "buffer": self.buffers[at], "offset": 0, "size": 4})
        self.buffers[at] = self.buffer()


def script(rounds, seed=1):
    """The text of a script of so many rounds, each with a write, a submit and its copies."""
    made = Long(seed)
    made.resources()
    for number in range(1, rounds + 1):
        made.round(number)
    calls = ",\n".join(map(json.dumps, made.calls))
    return f'{{"budget":{2**30},"phases":[[[\n{calls}\n]]]}}\n'
