# The targets tilgwaren::shared and tilgwaren::static, and tilgwaren::tilgwaren, which is the first of them.
get_filename_component(_tilgwaren_libdir "${CMAKE_CURRENT_LIST_DIR}/../.." ABSOLUTE)
get_filename_component(_tilgwaren_include "${_tilgwaren_libdir}/../include" ABSOLUTE)

if(NOT TARGET tilgwaren::tilgwaren)
  add_library(tilgwaren::shared SHARED IMPORTED)
  set_target_properties(tilgwaren::shared PROPERTIES
    IMPORTED_LOCATION "${_tilgwaren_libdir}/libtilgwaren.so.@VERSION@"
    IMPORTED_SONAME "libtilgwaren.so.@SERIES@"
    INTERFACE_INCLUDE_DIRECTORIES "${_tilgwaren_include}")
  add_library(tilgwaren::static STATIC IMPORTED)
  set_target_properties(tilgwaren::static PROPERTIES
    IMPORTED_LOCATION "${_tilgwaren_libdir}/libtilgwaren.a"
    INTERFACE_INCLUDE_DIRECTORIES "${_tilgwaren_include}")
  add_library(tilgwaren::tilgwaren INTERFACE IMPORTED)
  set_target_properties(tilgwaren::tilgwaren PROPERTIES INTERFACE_LINK_LIBRARIES tilgwaren::shared)
endif()

unset(_tilgwaren_libdir)
unset(_tilgwaren_include)
