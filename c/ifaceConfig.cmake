# For CMake: find_package(iface REQUIRED), and then target_link_libraries(PROGRAM iface::iface). The folder may stand anywhere.
get_filename_component(iface_prefix "${CMAKE_CURRENT_LIST_DIR}/../../.." ABSOLUTE)
if(NOT TARGET iface::iface)
  add_library(iface::iface STATIC IMPORTED)
  set_target_properties(iface::iface PROPERTIES
    IMPORTED_LOCATION "${iface_prefix}/lib/libiface.a"
    INTERFACE_INCLUDE_DIRECTORIES "${iface_prefix}/include")
endif()
