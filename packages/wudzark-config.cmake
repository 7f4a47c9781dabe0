# find_package(wudzark) gives these targets; those of the recorders are in find_package(lfts):
#
#     wudzark::wudzark    the library, linked into the program
#     wudzark::shared     the same as a shared library

get_filename_component(_wudzark_prefix "${CMAKE_CURRENT_LIST_DIR}/../../.." ABSOLUTE)

if(NOT TARGET wudzark::wudzark)
  add_library(wudzark::wudzark STATIC IMPORTED)
  set_target_properties(
    wudzark::wudzark PROPERTIES IMPORTED_LOCATION "${_wudzark_prefix}/lib/libwudzark.a"
                                INTERFACE_INCLUDE_DIRECTORIES "${_wudzark_prefix}/include")
  add_library(wudzark::shared SHARED IMPORTED)
  set_target_properties(
    wudzark::shared
    PROPERTIES IMPORTED_LOCATION "${_wudzark_prefix}/lib/libwudzark.so.0"
               IMPORTED_SONAME "libwudzark.so.0"
               INTERFACE_INCLUDE_DIRECTORIES "${_wudzark_prefix}/include")
endif()

unset(_wudzark_prefix)
