# find_package(zikorape) gives the target zikorape::zikorape: the static library and the folder of its header.
get_filename_component(_zikorape_prefix "${CMAKE_CURRENT_LIST_DIR}/../../.." ABSOLUTE)
if(NOT TARGET zikorape::zikorape)
  add_library(zikorape::zikorape STATIC IMPORTED)
  set_target_properties(zikorape::zikorape PROPERTIES
    IMPORTED_LOCATION "${_zikorape_prefix}/lib/libzikorape.a"
    INTERFACE_INCLUDE_DIRECTORIES "${_zikorape_prefix}/include")
endif()
unset(_zikorape_prefix)
