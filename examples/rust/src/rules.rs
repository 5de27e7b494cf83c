//! What each rule asks, and which section of the WebGPU standard has it. Written of `docs/rules.json` by
//! `tools/python -m wgsim.generated --write`.

/// What a rule asks, of which a fault says that it is not so. None: no rule has the number.
#[rustfmt::skip]
pub fn rule_text(rule: u32) -> Option<&'static str> {
    Some(match rule {
        10 =>
            "each object that the call names was made by this device, and is of the kind that the call takes",
        11 =>
            "no object that the call names was dropped before; at a finish each handle that a command names is of \
             an object of this device that was not dropped before the encoder was made, and says of it what is so",
        12 =>
            "each object that the call names is valid",
        13 =>
            "the bytes of all valid buffers, textures and query sets that were not given back, and those of the \
             new one, are within the budget",
        14 =>
            "a command comes before the finish or finishBundle of its encoder, and on a pass before the end of \
             that",
        100 =>
            "the usage is not 0 and at most 1023",
        101 =>
            "MAP_READ goes with COPY_DST at most",
        102 =>
            "MAP_WRITE goes with COPY_SRC at most",
        103 =>
            "the size is at most `maxBufferSize`",
        104 =>
            "a buffer that is mapped at its creation has a size that is a multiple of 4",
        110 =>
            "the usage is not 0 and at most 31",
        111 =>
            "width, height, and depth or layers are at least 1",
        112 =>
            "width, height, and depth or layers are within the limits: of 1D the width is at most \
             `maxTextureDimension1D`, and height and depth are 1; of 2D width and height are at most \
             `maxTextureDimension2D` each, and the layers at most `maxTextureArrayLayers`; of 3D all three are at \
             most `maxTextureDimension3D` each",
        113 =>
            "the count of mip levels is from 1 to floor(log2 of the greatest extent) + 1, where layers are no \
             extent; a 1D texture has one",
        114 =>
            "there are 1 or 4 samples",
        115 =>
            "with 4 samples it is 2D, with one mip level and one layer, with RENDER_ATTACHMENT and without \
             STORAGE_BINDING, and its format allows it (the table of formats in `docs/script.md` has which)",
        116 =>
            "a 1D or 3D texture has a color format",
        117 =>
            "RENDER_ATTACHMENT is not on a 1D texture",
        118 =>
            "with STORAGE_BINDING the format can be accessed as storage (the table of formats in `docs/script.md` \
             has which)",
        120 =>
            "the texture's format has the aspect",
        121 =>
            "there is a mip level, and the levels are among the texture's",
        122 =>
            "there is a layer, and the layers are among the texture's; a 1D or 3D texture has one",
        123 =>
            "the dimension fits: 1d on 1D, 3d on 3D, the others on 2D",
        124 =>
            "1d, 2d and 3d have one layer, a cube six, a cube-array a multiple of six",
        125 =>
            "the texture of a cube or cube-array is square",
        126 =>
            "a texture with 4 samples has a 2d view",
        130 =>
            "no two entries have the same binding",
        131 =>
            "each binding is below `maxBindingsPerBindGroup`",
        132 =>
            "each visibility is at most 7; 0 will do",
        133 =>
            "no entry that the vertex stage sees is a `storage` buffer, or a storage texture with the access \
             write-only or read-write",
        134 =>
            "a texture with `multi` true has the dimension 2d, and its sample type is not float",
        135 =>
            "a storage texture has neither the dimension cube nor cube-array, and its format has the access",
        136 =>
            "no stage sees more entries of the kind `texture` than `maxSampledTexturesPerShaderStage`, of \
             `sampler` than `maxSamplersPerShaderStage`, of `storage` and `read-only-storage` together than \
             `maxStorageBuffersPerShaderStage`, of `storage-texture` than `maxStorageTexturesPerShaderStage`, or \
             of `uniform` than `maxUniformBuffersPerShaderStage`",
        137 =>
            "no more entries of the kind `uniform` are dynamic than `maxDynamicUniformBuffersPerPipelineLayout`, \
             and no more of `storage` and `read-only-storage` together than \
             `maxDynamicStorageBuffersPerPipelineLayout`, whatever stages see them",
        140 =>
            "there are at most 4 layouts, those that are null counted too",
        141 =>
            "no stage sees more in all layouts together than rule 136 allows; a layout that stands there twice \
             counts twice",
        142 =>
            "no more buffers are dynamic in all layouts together than rule 137 allows",
        143 =>
            "no layout is exclusive to a pipeline: none was got of a pipeline that derived it",
        150 =>
            "for each binding of the layout there is one entry, and each entry has a binding of the layout",
        151 =>
            "each entry has what the layout's entry of its binding asks for: a buffer for `uniform`, `storage` \
             and `read-only-storage`, a sampler for `sampler`, a view for `texture` and `storage-texture`",
        152 =>
            "the usage of each buffer has UNIFORM for `uniform`, and STORAGE for `storage` and \
             `read-only-storage`",
        153 =>
            "the offset in each buffer is a multiple of 256, the size is not 0, and offset and size fit the \
             buffer; a size that is left out is what remains of the buffer from the offset on",
        154 =>
            "the size is at most `maxUniformBufferBindingSize` for `uniform` and at most \
             `maxStorageBufferBindingSize` for `storage` and `read-only-storage`, and for these two it is a \
             multiple of 4; it is at least the `minSize` of the layout's entry",
        155 =>
            "of each view for `texture`: its texture's usage has TEXTURE_BINDING, it has one aspect, what that is \
             sampled as will do for the sample type that is asked for, its dimension is the one that is asked \
             for, and its texture has 4 samples exactly where `multi` is true",
        156 =>
            "of each view for `storage-texture`: its texture's usage has STORAGE_BINDING, it has one mip level, \
             and its texture's format and its own dimension are those that are asked for",
        157 =>
            "where the layout asks for a `filtering` sampler, each sampler is filtering or non-filtering, and \
             else of the very kind that is asked for",
        160 =>
            "for each entry of the interface the layout has its group, and that has its binding, visible to the \
             stage of the entry, which is that of a compute pipeline, and of the same kind: the same word and the \
             same `type`, `sample`, `dim`, `multi`, `access` and `format`; `dynamic` and `minSize` are not looked \
             at",
        161 =>
            "there are at most 8 vertex buffers, those that are null counted too, and at most \
             `maxVertexAttributes` attributes in all of them together; each stride is a multiple of 4 and at most \
             `maxVertexBufferArrayStride`",
        162 =>
            "each location is below `maxVertexAttributes`, and no two attributes have the same location, be they \
             of one buffer or of two; each attribute ends at or before the stride of its buffer, or at or before \
             `maxVertexBufferArrayStride` where the stride is 0; its offset is a multiple of 4, or of 2 where its \
             format has 2 bytes",
        163 =>
            "there are at most 8 targets, those that are null counted too, and the format of each that is not \
             null is a color format",
        164 =>
            "where `depth` is given, its format has depth or stencil; it has depth where `depthWrite` is true, \
             and stencil where `stencilWrite` is true",
        165 =>
            "some target is not null, or `depth` is given",
        166 =>
            "there are 1 or 4 samples, and with 4 the format of each target that is not null, and of `depth` \
             where that is given, allows it (the table of formats in `docs/script.md` has which)",
        167 =>
            "where the layout is `auto`: no two entries of the interface that name the same binding of the same \
             group differ in kind, which is to say in the word, or in `type`, `sample`, `dim`, `multi`, `access` \
             or `format`",
        168 =>
            "where the layout is `auto`: each group of the interface is below 4, and the bind group layouts that \
             are derived meet rules 130 to 137 each, and 140 to 142 together",
        169 =>
            "the index is below the number of groups that the pipeline's layout has, be it named or derived",
        170 =>
            "the count is within the limit (4096); 0 will do",
        175 =>
            "there are at most 8 colors, those that are null counted too, and each that is not null is a color \
             format; where `depth` is given, it has depth or stencil",
        176 | 301 =>
            "some color is not null, or `depth` is given",
        177 =>
            "there are 1 or 4 samples, and with 4 each color that is not null, and `depth` where that is given, \
             allows it (the table of formats in `docs/script.md` has which)",
        180 =>
            "the encoder or bundle encoder has not ended: no earlier finish was of it, be it accepted, refused, \
             or of a lost device",
        182 =>
            "no pass is open",
        183 =>
            "no debug group of the encoder or bundle encoder is open",
        184 =>
            "every usage scope is compatible; each dispatch is a scope, each render pass as a whole, and all that \
             is set in a bundle",
        190 =>
            "none of the command buffers was consumed: no earlier submit lists one, be it accepted, refused, or \
             without effect on a lost device",
        191 =>
            "none of the command buffers is named twice",
        192 =>
            "no buffer that a command of them names, itself, through a bind group, or through a bundle and what \
             its commands name, is pending, mapped or destroyed",
        193 =>
            "no texture that a command of them names, itself, through a view that a render pass attaches, through \
             a bind group and its views, or through a bundle and what its commands name, and no query set that a \
             command of them names is destroyed; a render pass names its query set whether or not it begins a \
             query",
        200 | 266 | 275 =>
            "the buffer's usage has COPY_DST",
        201 | 276 =>
            "offset and size are multiples of 4",
        202 | 222 | 277 =>
            "offset and size fit the buffer",
        203 | 225 =>
            "the buffer is not pending, mapped or destroyed",
        205 | 256 =>
            "the texture's usage has COPY_DST",
        206 | 257 =>
            "the texture has one sample",
        207 =>
            "the place is in the texture, as rule 258 asks",
        208 | 259 =>
            "the aspect is one that can be copied to",
        209 =>
            "the layout is right, and the bytes that it takes from the offset on are within the data",
        210 =>
            "the texture is not destroyed",
        220 =>
            "the offset is a multiple of 8",
        221 =>
            "the size is a multiple of 4; a size that is left out is what remains of the buffer from the offset \
             on",
        223 =>
            "the mode is READ (1) or WRITE (2)",
        224 =>
            "the buffer's usage has MAP_READ for the mode READ, and MAP_WRITE for the mode WRITE",
        240 =>
            "no pass is open on the encoder",
        250 | 270 =>
            "the source's usage has COPY_SRC",
        251 | 271 =>
            "the target's usage has COPY_DST",
        252 =>
            "both offsets and the size are multiples of 4",
        253 =>
            "both ranges fit their buffers",
        254 =>
            "source and target are two buffers",
        255 =>
            "the buffer's usage has COPY_SRC",
        258 =>
            "the mip level exists; origin and size are in its extent and layers; a depth, stencil or multisampled \
             texture is covered in width and height; so it is of each texture that the copy names, the source \
             first",
        260 =>
            "bytesPerRow, if given, is a multiple of 256",
        261 =>
            "the offset is a multiple of the bytes of a texel, or of 4 for depth and stencil",
        262 =>
            "the layout is right, and the bytes that it takes from the offset on fit the buffer",
        265 =>
            "the texture's usage has COPY_SRC",
        267 =>
            "the aspect is one that can be copied from",
        272 =>
            "the formats are equal, or differ in `-srgb` alone",
        273 =>
            "the counts of samples are equal",
        274 =>
            "no subresource is both copied from and copied to",
        280 =>
            "the buffer's usage has QUERY_RESOLVE",
        281 =>
            "first is below the count of the query set, and first and count together are at most that",
        282 =>
            "the offset is a multiple of 256",
        283 =>
            "the offset and 8 bytes for each of the queries fit the buffer",
        285 =>
            "a debug group of that encoder, pass or bundle encoder is open",
        300 =>
            "there are at most 8 colors, those that are null counted too",
        302 =>
            "of the view of each color: its texture's usage has RENDER_ATTACHMENT, its texture has a color \
             format, its dimension is 2d, 2d-array or 3d, and it has one mip level and one layer",
        303 =>
            "of the view of `depth`: its texture's usage has RENDER_ATTACHMENT, its texture's format has depth or \
             stencil, it has all aspects of that format, its dimension is 2d or 2d-array, and it has one mip \
             level and one layer",
        304 =>
            "of depth and of stencil each: load and store are both given where the format of the view of `depth` \
             has the aspect and the aspect's read-only key is false, and neither is given otherwise",
        305 =>
            "the views of all colors and of `depth` have the same width, the same height and the same count of \
             samples; resolve views are not looked at",
        306 =>
            "no cell, which is a depth slice of a 3D texture and else a subresource, is attached twice, be it by \
             the view of a color, by a resolve view or by the view of `depth`",
        307 =>
            "for each color that has a resolve view: the texture of its view has 4 samples; the resolve view is \
             as rule 302 asks of a view, its dimension is 2d or 2d-array, its texture has one sample and the same \
             format as that of the view, and its width and height are those of the view",
        308 =>
            "of each color: `depthSlice` is given exactly where the view is 3d, and is then below the depth of \
             its mip level",
        310 =>
            "no debug group of the pass is open",
        311 =>
            "on a render pass: no occlusion query is active in it",
        320 =>
            "on a render pass or a bundle encoder: the formats of the targets of the pipeline, its depth format \
             and its samples are those of that",
        321 =>
            "on a render pass or a bundle encoder: the pipeline does not write depth where that has \
             `depthReadOnly` true, and does not write stencil where that has `stencilReadOnly` true",
        325 =>
            "the index is within the limit (below 4)",
        326 =>
            "there are as many offsets as the group's layout has dynamic entries, and none where the group is \
             null",
        327 =>
            "each offset is a multiple of 256",
        328 =>
            "each range that the group binds fits its buffer, moved by its offset; a group that is null binds \
             none",
        330 =>
            "the usage of the buffer, if it is not null, has VERTEX",
        331 =>
            "the slot is within the limit (below 8)",
        332 | 345 =>
            "the offset is a multiple of 4",
        333 =>
            "offset and size fit the buffer; a size that is left out is what remains of the buffer from the \
             offset on; the size may be 0; where the buffer is null both are 0, and a size that is left out is 0",
        335 =>
            "the buffer's usage has INDEX",
        336 =>
            "the offset is a multiple of 2 for uint16, and of 4 for uint32",
        337 =>
            "offset and size fit the buffer; a size that is left out is what remains of the buffer from the \
             offset on; the size may be 0",
        340 =>
            "a pipeline is set",
        341 =>
            "at each index at which the pipeline's layout has an entry a group is set, with an equivalent layout: \
             its entries are equal, and it is exclusive to this pipeline where that has derived its layouts, and \
             else to none",
        342 =>
            "no two bindings of the groups for which the pipeline's layout asks overlap of which some stage sees \
             both and one is a `storage` buffer, or a storage texture with the access write-only or read-write",
        343 =>
            "x, y and z are within the limit (65535); 0 will do",
        344 =>
            "the buffer's usage has INDIRECT",
        346 =>
            "offset and the numbers that are read there fit the buffer: 12 bytes for a dispatch, 16 for a draw, \
             20 for an indexed draw",
        350 =>
            "for each of the pipeline's vertex buffers that is not null a buffer is set at the slot of its place: \
             for the first at slot 0, for the second at slot 1, and so on, those that are null counted too",
        351 =>
            "for each of the pipeline's vertex buffers that is not null what the draw asks of it is within the \
             range that is set at its slot; of an indexed draw only those are looked at whose step is instance",
        352 =>
            "an index buffer is set",
        353 =>
            "firstIndex and indices together, times the bytes of an index (2 for uint16, 4 for uint32), are at \
             most the size of the range that is set of the index buffer",
        360 =>
            "the pass has a query set",
        361 =>
            "the index is below the count of the query set of the pass",
        362 =>
            "no occlusion query is active in the pass",
        363 =>
            "the query of the index was not begun before in this pass",
        364 =>
            "an occlusion query is active in the pass",
        370 =>
            "the colors, the depth format and the samples of each bundle are those of the pass",
        371 =>
            "each bundle has `depthReadOnly` true where the pass has it true, and `stencilReadOnly` true where \
             the pass has that true",
        400 =>
            "width and height are at most `maxTextureDimension2D`",
        401 =>
            "the viewport begins at most twice `maxTextureDimension2D` to the left of the left edge of what is \
             attached, and above its upper edge, and ends at most twice that, less 1, to the right of the left \
             edge, and below the upper edge",
        402 =>
            "minDepth is at most maxDepth, and that at most 1",
        403 =>
            "x and width together are at most the width of what is attached to the pass, and y and height at most \
             its height; 0 will do",
        404 =>
            "on a render pass whose begin gives `maxDrawCount`: its draws are at most that",
        405 =>
            "`lodMinClamp` is at most `lodMaxClamp`",
        406 =>
            "`maxAnisotropy` is at least 1, and where it is above 1 `magFilter`, `minFilter` and `mipmapFilter` \
             are linear",
        407 =>
            "`stripIndexFormat` is given only where the topology is line-strip or triangle-strip",
        408 =>
            "each target that has `blend` has a format that may blend",
        409 =>
            "in `color` and in `alpha` of each `blend`: where the operation is min or max, both factors are one",
        410 =>
            "each `writeMask` is at most 15",
        411 =>
            "where `maxColorAttachmentBytesPerSample` was asked for: a sample of all color targets, or of all \
             colors of a bundle encoder or of a pass, takes at most that many bytes",
        412 =>
            "where `depthCompare` is neither always nor `\"none\"`, the format of `depth` has depth",
        413 =>
            "where `stencilFront` or `stencilBack` has a `compare` other than always or an operation other than \
             keep, the format of `depth` has stencil; the masks are not looked at",
        414 =>
            "where the format of `depth` has depth, `depthWrite` is not `\"none\"`",
        415 =>
            "where the format of `depth` has depth, and `depthWrite` is true or `depthFailOp` of `stencilFront` \
             or of `stencilBack` is other than keep, `depthCompare` is not `\"none\"`",
        416 =>
            "where `bias` of `depth` is true, the topology is triangle-list or triangle-strip",
        417 =>
            "where `alphaToCoverage` is true: there are 4 samples, and there is a first target, which is not null \
             and whose format may blend and has alpha",
        418 =>
            "where `depthLoad` is clear, `depthClearValue`, if it is given, is not `\"none\"` and is at most 65536, \
             which stands for 1",
        419 =>
            "where the topology of the pipeline is line-strip or triangle-strip, it has a `stripIndexFormat`, and \
             the index buffer that is set is of that format",
        _ => return None,
    })
}

/// The section of the WebGPU standard that has a rule, or the sections, with commas between them. None: no rule has the number.
#[rustfmt::skip]
pub fn rule_section(rule: u32) -> Option<&'static str> {
    Some(match rule {
        10 | 11 | 12 =>
            "Invalid Internal Objects & Contagious Invalidity",
        13 =>
            "GPUError",
        14 | 240 =>
            "Command Encoding",
        100 | 101 | 102 | 104 =>
            "Buffer Creation",
        103 | 112 | 131 | 136 | 137 | 140 | 141 | 142 =>
            "Limits",
        110 | 111 | 113 | 114 | 115 | 116 | 117 | 118 =>
            "Texture Creation",
        120 | 121 | 122 | 123 | 124 | 125 | 126 =>
            "Texture View Creation",
        130 | 132 | 133 | 134 | 135 =>
            "Bind Group Layout Creation",
        143 =>
            "Pipeline Layout Creation",
        150 | 151 | 152 | 155 | 156 | 157 =>
            "Bind Group Creation",
        153 | 154 =>
            "Bind Group Creation, Limits",
        160 =>
            "Compute Pipeline Creation, GPUProgrammableStage, Render Pipeline Creation",
        161 | 162 =>
            "Vertex State, Limits",
        163 =>
            "Fragment State, Color Target State, Limits",
        164 | 412 | 413 | 414 | 415 | 416 =>
            "Depth/Stencil State",
        165 =>
            "Render Pipeline Creation",
        166 =>
            "Multisample State",
        167 =>
            "Default pipeline layout",
        168 =>
            "Default pipeline layout, Limits",
        169 =>
            "Base pipelines",
        170 =>
            "QuerySet Creation",
        175 =>
            "createRenderBundleEncoder, Limits",
        176 | 177 =>
            "createRenderBundleEncoder",
        180 | 183 =>
            "Finalization, GPURenderBundleEncoder",
        182 =>
            "Finalization",
        184 =>
            "Usage Scope Validation",
        190 | 191 | 192 | 193 =>
            "submit",
        200 | 201 | 202 | 203 =>
            "writeBuffer",
        205 | 206 | 208 | 210 =>
            "writeTexture",
        207 | 258 =>
            "validating texture copy range",
        209 | 262 =>
            "linear texture data",
        220 | 221 | 222 | 223 | 224 | 225 =>
            "mapAsync",
        250 | 251 | 252 | 253 | 254 | 275 | 276 | 277 =>
            "Buffer Copy Commands",
        255 | 256 | 259 | 260 | 261 | 265 | 266 | 267 | 270 | 271 | 272 | 273 | 274 =>
            "Texel Copies",
        257 =>
            "Texel Copies, validating texture copy range",
        280 | 281 | 282 | 283 =>
            "resolveQuerySet",
        285 =>
            "Debug Markers",
        300 =>
            "Render Pass Encoder Creation, Limits",
        301 | 305 | 306 =>
            "Render Pass Encoder Creation",
        302 | 307 | 308 =>
            "Color Attachments",
        303 | 304 | 418 =>
            "Depth/Stencil Attachments",
        310 =>
            "Compute Passes, Render Passes",
        311 | 404 =>
            "Render Passes",
        320 =>
            "Drawing, Render Pass Layout",
        321 | 330 | 332 | 333 | 335 | 336 | 337 | 350 | 351 | 352 | 353 | 419 =>
            "Drawing",
        325 | 326 | 327 | 328 | 341 | 342 =>
            "Bind Groups",
        331 =>
            "Drawing, Limits",
        340 | 344 | 345 | 346 =>
            "Dispatch, Drawing",
        343 =>
            "Dispatch",
        360 | 361 | 362 | 363 =>
            "beginOcclusionQuery",
        364 =>
            "endOcclusionQuery",
        370 =>
            "executeBundles, Render Pass Layout",
        371 =>
            "executeBundles",
        400 | 401 =>
            "Rasterization state, Limits",
        402 | 403 =>
            "Rasterization state",
        405 | 406 =>
            "Sampler Creation",
        407 =>
            "Primitive State",
        408 | 410 =>
            "Fragment State, Color Target State",
        409 =>
            "Fragment State, Blend State",
        411 =>
            "Fragment State, Calculating color attachment bytes per sample, Limits, createRenderBundleEncoder, \
             Render Pass Encoder Creation",
        417 =>
            "Render Pipeline Creation, Multisample State",
        _ => return None,
    })
}
