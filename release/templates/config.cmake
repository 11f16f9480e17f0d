# Finds huckleport where this file lies: the targets huckleport::huckleport, the shared object, and huckleport::static, the archive.
get_filename_component(_huckleport_libraries "${CMAKE_CURRENT_LIST_DIR}/../.." ABSOLUTE)
get_filename_component(_huckleport_headers "${_huckleport_libraries}/@INCLUDE@" ABSOLUTE)

if(NOT TARGET huckleport::huckleport)
  add_library(huckleport::huckleport SHARED IMPORTED)
  set_target_properties(huckleport::huckleport PROPERTIES
    IMPORTED_LOCATION "${_huckleport_libraries}/@SONAME@"
    IMPORTED_SONAME "@SONAME@"
    INTERFACE_INCLUDE_DIRECTORIES "${_huckleport_headers}")
endif()

if(NOT TARGET huckleport::static)
  add_library(huckleport::static STATIC IMPORTED)
  set_target_properties(huckleport::static PROPERTIES
    IMPORTED_LOCATION "${_huckleport_libraries}/libhuckleport.a"
    INTERFACE_INCLUDE_DIRECTORIES "${_huckleport_headers}")
endif()

unset(_huckleport_libraries)
unset(_huckleport_headers)
