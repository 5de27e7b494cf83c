// What a browser does that lies: in the way that `wgsimLie` names. It is put before the page that plays.
'use strict';
const wrap = (cls, method, make) => {
  const was = cls.prototype[method];
  cls.prototype[method] = function (...args) { return make.call(this, was, args); };
};
const LIES = {
  // A copy from a buffer that lacks COPY_SRC, or past the end of one, is taken.
  copy() {
    wrap(GPUCommandEncoder, 'copyBufferToBuffer', function (was, args) {
      const [source, from, target, to, size] = args, isInside = from + size <= source.size && to + size <= target.size;
      if (source.usage & 4 && target.usage & 8 && isInside) was.apply(this, args);
    });
  },
  // The outermost of two scopes or more gets what an inner one catches.
  scope() {
    const depths = new WeakMap(), held = new WeakMap();
    wrap(GPUDevice, 'pushErrorScope', function (was, args) {
      depths.set(this, (depths.get(this) || 0) + 1);
      return was.apply(this, args);
    });
    wrap(GPUDevice, 'popErrorScope', function (was, args) {
      const depth = depths.get(this) || 0, found = was.apply(this, args);
      depths.set(this, Math.max(0, depth - 1));
      return found.then(error => {
        if (depth > 1 && error) { held.set(this, error); return null; }
        const other = depth === 1 && !error ? held.get(this) || null : error;
        if (depth === 1) held.delete(this);
        return other;
      });
    });
  },
  // The promise of a workDone calls back twice.
  twice() {
    wrap(GPUQueue, 'onSubmittedWorkDone', function (was, args) {
      const promise = was.apply(this, args);
      return { then: (done, fail) => promise.then(value => { done(value); done(value); }, fail) };
    });
  },
  // A draw is refused.
  draw() { wrap(GPURenderPassEncoder, 'draw', function (was, args) { this.drawIndexed(args[0]); }); },
  crash() {},
};
if (globalThis.GPUDevice) LIES[globalThis.wgsimLie]();
