# For find_package(congee): the target congee::congee. The folders are found from this file's own place, lib/cmake/congee, so they
# are right wherever the library is.
get_filename_component(_congee_prefix "${CMAKE_CURRENT_LIST_DIR}/../../.." ABSOLUTE)
if(NOT TARGET congee::congee)
  add_library(congee::congee STATIC IMPORTED)
  set_target_properties(congee::congee PROPERTIES
    IMPORTED_LOCATION "${_congee_prefix}/lib/libcongee.a"
    INTERFACE_INCLUDE_DIRECTORIES "${_congee_prefix}/include")
endif()
unset(_congee_prefix)
