# find_package(nerthogal) gives the target nerthogal::nerthogal, a static library with its header.
get_filename_component(nerthogal_prefix "${CMAKE_CURRENT_LIST_DIR}/../../.." ABSOLUTE)
if(NOT TARGET nerthogal::nerthogal)
  add_library(nerthogal::nerthogal STATIC IMPORTED)
  set_target_properties(nerthogal::nerthogal PROPERTIES
    IMPORTED_LOCATION "${nerthogal_prefix}/lib/libnerthogal.a"
    INTERFACE_INCLUDE_DIRECTORIES "${nerthogal_prefix}/include")
endif()
