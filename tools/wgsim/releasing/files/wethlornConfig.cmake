# The proved core of a WebGPU device: wethlorn::wethlorn is the static library, and wethlorn::shared the shared one.
get_filename_component(wethlorn_prefix "${CMAKE_CURRENT_LIST_DIR}/../../.." ABSOLUTE)

if(NOT TARGET wethlorn::wethlorn)
  add_library(wethlorn::wethlorn STATIC IMPORTED)
  set_target_properties(wethlorn::wethlorn PROPERTIES
    IMPORTED_LOCATION "${wethlorn_prefix}/lib/libwethlorn.a"
    IMPORTED_LINK_INTERFACE_LANGUAGES C
    INTERFACE_INCLUDE_DIRECTORIES "${wethlorn_prefix}/include")
endif()

if(NOT TARGET wethlorn::shared)
  add_library(wethlorn::shared SHARED IMPORTED)
  set_target_properties(wethlorn::shared PROPERTIES
    IMPORTED_LOCATION "${wethlorn_prefix}/lib/shared/libwethlorn.so.@VERSION@"
    IMPORTED_SONAME @SONAME@
    INTERFACE_INCLUDE_DIRECTORIES "${wethlorn_prefix}/include")
endif()
