# find_package(lfts) gives the target lfts::lfts, the headers of the recorders for C and C++, and two variables:
#
#     lfts_SYSTEMVERILOG    the folder of the recorder for SystemVerilog
#     lfts_PYTHON           the folder of the one for Python

get_filename_component(_lfts_prefix "${CMAKE_CURRENT_LIST_DIR}/../../.." ABSOLUTE)

set(lfts_SYSTEMVERILOG "${_lfts_prefix}/share/wudzark/recorders/systemverilog")
set(lfts_PYTHON "${_lfts_prefix}/share/wudzark/recorders/python")
if(NOT TARGET lfts::lfts)
  add_library(lfts::lfts INTERFACE IMPORTED)
  set_target_properties(lfts::lfts PROPERTIES INTERFACE_INCLUDE_DIRECTORIES "${_lfts_prefix}/include")
endif()

unset(_lfts_prefix)
