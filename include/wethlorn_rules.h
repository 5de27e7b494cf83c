/* What each rule asks, in a sentence, and which section of the WebGPU standard has it, by the number that a fault has.
 * Written of docs/rules.json by `tools/python -m wgsim.generated --write`.
 *
 *     if (reply.fault)
 *         fprintf(stderr, "%s (WebGPU, %s)\n", wethlorn_rule_text(reply.rule), wethlorn_rule_section(reply.rule));
 */
#ifndef WETHLORN_RULES_H
#define WETHLORN_RULES_H
#include <stddef.h>
#include <stdint.h>

/* What a rule asks, of which a fault says that it is not so. NULL: no rule has the number. */
static inline const char *wethlorn_rule_text(uint32_t rule) {
    switch (rule) {
    case 10:
        return "each object that the call names was made by this device, and is of the kind that the call takes";
    case 11:
        return "no object that the call names was dropped before; at a finish each handle that a command names is of "
               "an object of this device that was not dropped before the encoder was made, and says of it what is so";
    case 12:
        return "each object that the call names is valid";
    case 13:
        return "the bytes of all valid buffers, textures and query sets that were not given back, and those of the "
               "new one, are within the budget";
    case 14:
        return "a command comes before the finish or finishBundle of its encoder, and on a pass before the end of "
               "that";
    case 100:
        return "the usage is not 0 and at most 1023";
    case 101:
        return "MAP_READ goes with COPY_DST at most";
    case 102:
        return "MAP_WRITE goes with COPY_SRC at most";
    case 103:
        return "the size is at most `maxBufferSize`";
    case 104:
        return "a buffer that is mapped at its creation has a size that is a multiple of 4";
    case 110:
        return "the usage is not 0 and at most 31";
    case 111:
        return "width, height, and depth or layers are at least 1";
    case 112:
        return "width, height, and depth or layers are within the limits: of 1D the width is at most "
               "`maxTextureDimension1D`, and height and depth are 1; of 2D width and height are at most "
               "`maxTextureDimension2D` each, and the layers at most `maxTextureArrayLayers`; of 3D all three are at "
               "most `maxTextureDimension3D` each";
    case 113:
        return "the count of mip levels is from 1 to floor(log2 of the greatest extent) + 1, where layers are no "
               "extent; a 1D texture has one";
    case 114:
        return "there are 1 or 4 samples";
    case 115:
        return "with 4 samples it is 2D, with one mip level and one layer, with RENDER_ATTACHMENT and without "
               "STORAGE_BINDING, and its format allows it (the table of formats in `docs/script.md` has which)";
    case 116:
        return "a 1D or 3D texture has a color format";
    case 117:
        return "RENDER_ATTACHMENT is not on a 1D texture";
    case 118:
        return "with STORAGE_BINDING the format can be accessed as storage (the table of formats in `docs/script.md` "
               "has which)";
    case 120:
        return "the texture's format has the aspect";
    case 121:
        return "there is a mip level, and the levels are among the texture's";
    case 122:
        return "there is a layer, and the layers are among the texture's; a 1D or 3D texture has one";
    case 123:
        return "the dimension fits: 1d on 1D, 3d on 3D, the others on 2D";
    case 124:
        return "1d, 2d and 3d have one layer, a cube six, a cube-array a multiple of six";
    case 125:
        return "the texture of a cube or cube-array is square";
    case 126:
        return "a texture with 4 samples has a 2d view";
    case 130:
        return "no two entries have the same binding";
    case 131:
        return "each binding is below `maxBindingsPerBindGroup`";
    case 132:
        return "each visibility is at most 7; 0 will do";
    case 133:
        return "no entry that the vertex stage sees is a `storage` buffer, or a storage texture with the access "
               "write-only or read-write";
    case 134:
        return "a texture with `multi` true has the dimension 2d, and its sample type is not float";
    case 135:
        return "a storage texture has neither the dimension cube nor cube-array, and its format has the access";
    case 136:
        return "no stage sees more entries of the kind `texture` than `maxSampledTexturesPerShaderStage`, of "
               "`sampler` than `maxSamplersPerShaderStage`, of `storage` and `read-only-storage` together than "
               "`maxStorageBuffersPerShaderStage`, of `storage-texture` than `maxStorageTexturesPerShaderStage`, or "
               "of `uniform` than `maxUniformBuffersPerShaderStage`";
    case 137:
        return "no more entries of the kind `uniform` are dynamic than `maxDynamicUniformBuffersPerPipelineLayout`, "
               "and no more of `storage` and `read-only-storage` together than "
               "`maxDynamicStorageBuffersPerPipelineLayout`, whatever stages see them";
    case 140:
        return "there are at most 4 layouts, those that are null counted too";
    case 141:
        return "no stage sees more in all layouts together than rule 136 allows; a layout that stands there twice "
               "counts twice";
    case 142:
        return "no more buffers are dynamic in all layouts together than rule 137 allows";
    case 143:
        return "no layout is exclusive to a pipeline: none was got of a pipeline that derived it";
    case 150:
        return "for each binding of the layout there is one entry, and each entry has a binding of the layout";
    case 151:
        return "each entry has what the layout's entry of its binding asks for: a buffer for `uniform`, `storage` "
               "and `read-only-storage`, a sampler for `sampler`, a view for `texture` and `storage-texture`";
    case 152:
        return "the usage of each buffer has UNIFORM for `uniform`, and STORAGE for `storage` and "
               "`read-only-storage`";
    case 153:
        return "the offset in each buffer is a multiple of 256, the size is not 0, and offset and size fit the "
               "buffer; a size that is left out is what remains of the buffer from the offset on";
    case 154:
        return "the size is at most `maxUniformBufferBindingSize` for `uniform` and at most "
               "`maxStorageBufferBindingSize` for `storage` and `read-only-storage`, and for these two it is a "
               "multiple of 4; it is at least the `minSize` of the layout's entry";
    case 155:
        return "of each view for `texture`: its texture's usage has TEXTURE_BINDING, it has one aspect, what that is "
               "sampled as will do for the sample type that is asked for, its dimension is the one that is asked "
               "for, and its texture has 4 samples exactly where `multi` is true";
    case 156:
        return "of each view for `storage-texture`: its texture's usage has STORAGE_BINDING, it has one mip level, "
               "and its texture's format and its own dimension are those that are asked for";
    case 157:
        return "where the layout asks for a `filtering` sampler, each sampler is filtering or non-filtering, and "
               "else of the very kind that is asked for";
    case 160:
        return "for each entry of the interface the layout has its group, and that has its binding, visible to the "
               "stage of the entry, which is that of a compute pipeline, and of the same kind: the same word and the "
               "same `type`, `sample`, `dim`, `multi`, `access` and `format`; `dynamic` and `minSize` are not looked "
               "at";
    case 161:
        return "there are at most 8 vertex buffers, those that are null counted too, and at most "
               "`maxVertexAttributes` attributes in all of them together; each stride is a multiple of 4 and at most "
               "`maxVertexBufferArrayStride`";
    case 162:
        return "each location is below `maxVertexAttributes`, and no two attributes have the same location, be they "
               "of one buffer or of two; each attribute ends at or before the stride of its buffer, or at or before "
               "`maxVertexBufferArrayStride` where the stride is 0; its offset is a multiple of 4, or of 2 where its "
               "format has 2 bytes";
    case 163:
        return "there are at most 8 targets, those that are null counted too, and the format of each that is not "
               "null is a color format";
    case 164:
        return "where `depth` is given, its format has depth or stencil; it has depth where `depthWrite` is true, "
               "and stencil where `stencilWrite` is true";
    case 165:
        return "some target is not null, or `depth` is given";
    case 166:
        return "there are 1 or 4 samples, and with 4 the format of each target that is not null, and of `depth` "
               "where that is given, allows it (the table of formats in `docs/script.md` has which)";
    case 167:
        return "where the layout is `auto`: no two entries of the interface that name the same binding of the same "
               "group differ in kind, which is to say in the word, or in `type`, `sample`, `dim`, `multi`, `access` "
               "or `format`";
    case 168:
        return "where the layout is `auto`: each group of the interface is below 4, and the bind group layouts that "
               "are derived meet rules 130 to 137 each, and 140 to 142 together";
    case 169:
        return "the index is below the number of groups that the pipeline's layout has, be it named or derived";
    case 170:
        return "the count is within the limit (4096); 0 will do";
    case 175:
        return "there are at most 8 colors, those that are null counted too, and each that is not null is a color "
               "format; where `depth` is given, it has depth or stencil";
    case 176: case 301:
        return "some color is not null, or `depth` is given";
    case 177:
        return "there are 1 or 4 samples, and with 4 each color that is not null, and `depth` where that is given, "
               "allows it (the table of formats in `docs/script.md` has which)";
    case 180:
        return "the encoder or bundle encoder has not ended: no earlier finish was of it, be it accepted, refused, "
               "or of a lost device";
    case 182:
        return "no pass is open";
    case 183:
        return "no debug group of the encoder or bundle encoder is open";
    case 184:
        return "every usage scope is compatible; each dispatch is a scope, each render pass as a whole, and all that "
               "is set in a bundle";
    case 190:
        return "none of the command buffers was consumed: no earlier submit lists one, be it accepted, refused, or "
               "without effect on a lost device";
    case 191:
        return "none of the command buffers is named twice";
    case 192:
        return "no buffer that a command of them names, itself, through a bind group, or through a bundle and what "
               "its commands name, is pending, mapped or destroyed";
    case 193:
        return "no texture that a command of them names, itself, through a view that a render pass attaches, through "
               "a bind group and its views, or through a bundle and what its commands name, and no query set that a "
               "command of them names is destroyed; a render pass names its query set whether or not it begins a "
               "query";
    case 200: case 266: case 275:
        return "the buffer's usage has COPY_DST";
    case 201: case 276:
        return "offset and size are multiples of 4";
    case 202: case 222: case 277:
        return "offset and size fit the buffer";
    case 203: case 225:
        return "the buffer is not pending, mapped or destroyed";
    case 205: case 256:
        return "the texture's usage has COPY_DST";
    case 206: case 257:
        return "the texture has one sample";
    case 207:
        return "the place is in the texture, as rule 258 asks";
    case 208: case 259:
        return "the aspect is one that can be copied to";
    case 209:
        return "the layout is right, and the bytes that it takes from the offset on are within the data";
    case 210:
        return "the texture is not destroyed";
    case 220:
        return "the offset is a multiple of 8";
    case 221:
        return "the size is a multiple of 4; a size that is left out is what remains of the buffer from the offset "
               "on";
    case 223:
        return "the mode is READ (1) or WRITE (2)";
    case 224:
        return "the buffer's usage has MAP_READ for the mode READ, and MAP_WRITE for the mode WRITE";
    case 240:
        return "no pass is open on the encoder";
    case 250: case 270:
        return "the source's usage has COPY_SRC";
    case 251: case 271:
        return "the target's usage has COPY_DST";
    case 252:
        return "both offsets and the size are multiples of 4";
    case 253:
        return "both ranges fit their buffers";
    case 254:
        return "source and target are two buffers";
    case 255:
        return "the buffer's usage has COPY_SRC";
    case 258:
        return "the mip level exists; origin and size are in its extent and layers; a depth, stencil or multisampled "
               "texture is covered in width and height; so it is of each texture that the copy names, the source "
               "first";
    case 260:
        return "bytesPerRow, if given, is a multiple of 256";
    case 261:
        return "the offset is a multiple of the bytes of a texel, or of 4 for depth and stencil";
    case 262:
        return "the layout is right, and the bytes that it takes from the offset on fit the buffer";
    case 265:
        return "the texture's usage has COPY_SRC";
    case 267:
        return "the aspect is one that can be copied from";
    case 272:
        return "the formats are equal, or differ in `-srgb` alone";
    case 273:
        return "the counts of samples are equal";
    case 274:
        return "no subresource is both copied from and copied to";
    case 280:
        return "the buffer's usage has QUERY_RESOLVE";
    case 281:
        return "first is below the count of the query set, and first and count together are at most that";
    case 282:
        return "the offset is a multiple of 256";
    case 283:
        return "the offset and 8 bytes for each of the queries fit the buffer";
    case 285:
        return "a debug group of that encoder, pass or bundle encoder is open";
    case 300:
        return "there are at most 8 colors, those that are null counted too";
    case 302:
        return "of the view of each color: its texture's usage has RENDER_ATTACHMENT, its texture has a color "
               "format, its dimension is 2d, 2d-array or 3d, and it has one mip level and one layer";
    case 303:
        return "of the view of `depth`: its texture's usage has RENDER_ATTACHMENT, its texture's format has depth or "
               "stencil, it has all aspects of that format, its dimension is 2d or 2d-array, and it has one mip "
               "level and one layer";
    case 304:
        return "of depth and of stencil each: load and store are both given where the format of the view of `depth` "
               "has the aspect and the aspect's read-only key is false, and neither is given otherwise";
    case 305:
        return "the views of all colors and of `depth` have the same width, the same height and the same count of "
               "samples; resolve views are not looked at";
    case 306:
        return "no cell, which is a depth slice of a 3D texture and else a subresource, is attached twice, be it by "
               "the view of a color, by a resolve view or by the view of `depth`";
    case 307:
        return "for each color that has a resolve view: the texture of its view has 4 samples; the resolve view is "
               "as rule 302 asks of a view, its dimension is 2d or 2d-array, its texture has one sample and the same "
               "format as that of the view, and its width and height are those of the view";
    case 308:
        return "of each color: `depthSlice` is given exactly where the view is 3d, and is then below the depth of "
               "its mip level";
    case 310:
        return "no debug group of the pass is open";
    case 311:
        return "on a render pass: no occlusion query is active in it";
    case 320:
        return "on a render pass or a bundle encoder: the formats of the targets of the pipeline, its depth format "
               "and its samples are those of that";
    case 321:
        return "on a render pass or a bundle encoder: the pipeline does not write depth where that has "
               "`depthReadOnly` true, and does not write stencil where that has `stencilReadOnly` true";
    case 325:
        return "the index is within the limit (below 4)";
    case 326:
        return "there are as many offsets as the group's layout has dynamic entries, and none where the group is "
               "null";
    case 327:
        return "each offset is a multiple of 256";
    case 328:
        return "each range that the group binds fits its buffer, moved by its offset; a group that is null binds "
               "none";
    case 330:
        return "the usage of the buffer, if it is not null, has VERTEX";
    case 331:
        return "the slot is within the limit (below 8)";
    case 332: case 345:
        return "the offset is a multiple of 4";
    case 333:
        return "offset and size fit the buffer; a size that is left out is what remains of the buffer from the "
               "offset on; the size may be 0; where the buffer is null both are 0, and a size that is left out is 0";
    case 335:
        return "the buffer's usage has INDEX";
    case 336:
        return "the offset is a multiple of 2 for uint16, and of 4 for uint32";
    case 337:
        return "offset and size fit the buffer; a size that is left out is what remains of the buffer from the "
               "offset on; the size may be 0";
    case 340:
        return "a pipeline is set";
    case 341:
        return "at each index at which the pipeline's layout has an entry a group is set, with an equivalent layout: "
               "its entries are equal, and it is exclusive to this pipeline where that has derived its layouts, and "
               "else to none";
    case 342:
        return "no two bindings of the groups for which the pipeline's layout asks overlap of which some stage sees "
               "both and one is a `storage` buffer, or a storage texture with the access write-only or read-write";
    case 343:
        return "x, y and z are within the limit (65535); 0 will do";
    case 344:
        return "the buffer's usage has INDIRECT";
    case 346:
        return "offset and the numbers that are read there fit the buffer: 12 bytes for a dispatch, 16 for a draw, "
               "20 for an indexed draw";
    case 350:
        return "for each of the pipeline's vertex buffers that is not null a buffer is set at the slot of its place: "
               "for the first at slot 0, for the second at slot 1, and so on, those that are null counted too";
    case 351:
        return "for each of the pipeline's vertex buffers that is not null what the draw asks of it is within the "
               "range that is set at its slot; of an indexed draw only those are looked at whose step is instance";
    case 352:
        return "an index buffer is set";
    case 353:
        return "firstIndex and indices together, times the bytes of an index (2 for uint16, 4 for uint32), are at "
               "most the size of the range that is set of the index buffer";
    case 360:
        return "the pass has a query set";
    case 361:
        return "the index is below the count of the query set of the pass";
    case 362:
        return "no occlusion query is active in the pass";
    case 363:
        return "the query of the index was not begun before in this pass";
    case 364:
        return "an occlusion query is active in the pass";
    case 370:
        return "the colors, the depth format and the samples of each bundle are those of the pass";
    case 371:
        return "each bundle has `depthReadOnly` true where the pass has it true, and `stencilReadOnly` true where "
               "the pass has that true";
    case 400:
        return "width and height are at most `maxTextureDimension2D`";
    case 401:
        return "the viewport begins at most twice `maxTextureDimension2D` to the left of the left edge of what is "
               "attached, and above its upper edge, and ends at most twice that, less 1, to the right of the left "
               "edge, and below the upper edge";
    case 402:
        return "minDepth is at most maxDepth, and that at most 1";
    case 403:
        return "x and width together are at most the width of what is attached to the pass, and y and height at most "
               "its height; 0 will do";
    case 404:
        return "on a render pass whose begin gives `maxDrawCount`: its draws are at most that";
    case 405:
        return "`lodMinClamp` is at most `lodMaxClamp`";
    case 406:
        return "`maxAnisotropy` is at least 1, and where it is above 1 `magFilter`, `minFilter` and `mipmapFilter` "
               "are linear";
    case 407:
        return "`stripIndexFormat` is given only where the topology is line-strip or triangle-strip";
    case 408:
        return "each target that has `blend` has a format that may blend";
    case 409:
        return "in `color` and in `alpha` of each `blend`: where the operation is min or max, both factors are one";
    case 410:
        return "each `writeMask` is at most 15";
    case 411:
        return "where `maxColorAttachmentBytesPerSample` was asked for: a sample of all color targets, or of all "
               "colors of a bundle encoder or of a pass, takes at most that many bytes";
    case 412:
        return "where `depthCompare` is neither always nor `\"none\"`, the format of `depth` has depth";
    case 413:
        return "where `stencilFront` or `stencilBack` has a `compare` other than always or an operation other than "
               "keep, the format of `depth` has stencil; the masks are not looked at";
    case 414:
        return "where the format of `depth` has depth, `depthWrite` is not `\"none\"`";
    case 415:
        return "where the format of `depth` has depth, and `depthWrite` is true or `depthFailOp` of `stencilFront` "
               "or of `stencilBack` is other than keep, `depthCompare` is not `\"none\"`";
    case 416:
        return "where `bias` of `depth` is true, the topology is triangle-list or triangle-strip";
    case 417:
        return "where `alphaToCoverage` is true: there are 4 samples, and there is a first target, which is not null "
               "and whose format may blend and has alpha";
    case 418:
        return "where `depthLoad` is clear, `depthClearValue`, if it is given, is not `\"none\"` and is at most 65536, "
               "which stands for 1";
    case 419:
        return "where the topology of the pipeline is line-strip or triangle-strip, it has a `stripIndexFormat`, and "
               "the index buffer that is set is of that format";
    default:
        return NULL;
    }
}

/* The section of the WebGPU standard that has a rule, or the sections, with commas between them. NULL: no
 * rule has the number. */
static inline const char *wethlorn_rule_section(uint32_t rule) {
    switch (rule) {
    case 10: case 11: case 12:
        return "Invalid Internal Objects & Contagious Invalidity";
    case 13:
        return "GPUError";
    case 14: case 240:
        return "Command Encoding";
    case 100: case 101: case 102: case 104:
        return "Buffer Creation";
    case 103: case 112: case 131: case 136: case 137: case 140: case 141: case 142:
        return "Limits";
    case 110: case 111: case 113: case 114: case 115: case 116: case 117: case 118:
        return "Texture Creation";
    case 120: case 121: case 122: case 123: case 124: case 125: case 126:
        return "Texture View Creation";
    case 130: case 132: case 133: case 134: case 135:
        return "Bind Group Layout Creation";
    case 143:
        return "Pipeline Layout Creation";
    case 150: case 151: case 152: case 155: case 156: case 157:
        return "Bind Group Creation";
    case 153: case 154:
        return "Bind Group Creation, Limits";
    case 160:
        return "Compute Pipeline Creation, GPUProgrammableStage, Render Pipeline Creation";
    case 161: case 162:
        return "Vertex State, Limits";
    case 163:
        return "Fragment State, Color Target State, Limits";
    case 164: case 412: case 413: case 414: case 415: case 416:
        return "Depth/Stencil State";
    case 165:
        return "Render Pipeline Creation";
    case 166:
        return "Multisample State";
    case 167:
        return "Default pipeline layout";
    case 168:
        return "Default pipeline layout, Limits";
    case 169:
        return "Base pipelines";
    case 170:
        return "QuerySet Creation";
    case 175:
        return "createRenderBundleEncoder, Limits";
    case 176: case 177:
        return "createRenderBundleEncoder";
    case 180: case 183:
        return "Finalization, GPURenderBundleEncoder";
    case 182:
        return "Finalization";
    case 184:
        return "Usage Scope Validation";
    case 190: case 191: case 192: case 193:
        return "submit";
    case 200: case 201: case 202: case 203:
        return "writeBuffer";
    case 205: case 206: case 208: case 210:
        return "writeTexture";
    case 207: case 258:
        return "validating texture copy range";
    case 209: case 262:
        return "linear texture data";
    case 220: case 221: case 222: case 223: case 224: case 225:
        return "mapAsync";
    case 250: case 251: case 252: case 253: case 254: case 275: case 276: case 277:
        return "Buffer Copy Commands";
    case 255: case 256: case 259: case 260: case 261: case 265: case 266: case 267: case 270: case
    271: case 272: case 273: case 274:
        return "Texel Copies";
    case 257:
        return "Texel Copies, validating texture copy range";
    case 280: case 281: case 282: case 283:
        return "resolveQuerySet";
    case 285:
        return "Debug Markers";
    case 300:
        return "Render Pass Encoder Creation, Limits";
    case 301: case 305: case 306:
        return "Render Pass Encoder Creation";
    case 302: case 307: case 308:
        return "Color Attachments";
    case 303: case 304: case 418:
        return "Depth/Stencil Attachments";
    case 310:
        return "Compute Passes, Render Passes";
    case 311: case 404:
        return "Render Passes";
    case 320:
        return "Drawing, Render Pass Layout";
    case 321: case 330: case 332: case 333: case 335: case 336: case 337: case 350: case 351: case
    352: case 353: case 419:
        return "Drawing";
    case 325: case 326: case 327: case 328: case 341: case 342:
        return "Bind Groups";
    case 331:
        return "Drawing, Limits";
    case 340: case 344: case 345: case 346:
        return "Dispatch, Drawing";
    case 343:
        return "Dispatch";
    case 360: case 361: case 362: case 363:
        return "beginOcclusionQuery";
    case 364:
        return "endOcclusionQuery";
    case 370:
        return "executeBundles, Render Pass Layout";
    case 371:
        return "executeBundles";
    case 400: case 401:
        return "Rasterization state, Limits";
    case 402: case 403:
        return "Rasterization state";
    case 405: case 406:
        return "Sampler Creation";
    case 407:
        return "Primitive State";
    case 408: case 410:
        return "Fragment State, Color Target State";
    case 409:
        return "Fragment State, Blend State";
    case 411:
        return "Fragment State, Calculating color attachment bytes per sample, Limits, createRenderBundleEncoder, "
               "Render Pass Encoder Creation";
    case 417:
        return "Render Pipeline Creation, Multisample State";
    default:
        return NULL;
    }
}

#endif
