# find_package(am9517 4.3 REQUIRED) gives the targets am9517::am9517 (the archive), am9517::shared (the shared library) and
# am9517::board (the board's archive). Each brings the folder of am9517.h, am9517.hpp and am9517_board.h. The package may be moved: all is found from this file's own place.

if((CMAKE_SYSTEM_NAME AND NOT CMAKE_SYSTEM_NAME STREQUAL "Linux") OR
   (CMAKE_SYSTEM_PROCESSOR AND NOT CMAKE_SYSTEM_PROCESSOR MATCHES "^(x86_64|amd64|AMD64)$"))
  set(am9517_FOUND FALSE)
  set(am9517_NOT_FOUND_MESSAGE "libam9517 is for x86-64 Linux, and this build is for ${CMAKE_SYSTEM_NAME} on ${CMAKE_SYSTEM_PROCESSOR}")
  return()
endif()

get_filename_component(_am9517_prefix "${CMAKE_CURRENT_LIST_DIR}/../../.." ABSOLUTE)

if(NOT TARGET am9517::am9517)
  add_library(am9517::am9517 STATIC IMPORTED)
  set_target_properties(am9517::am9517 PROPERTIES
    IMPORTED_LOCATION "${_am9517_prefix}/lib/libam9517.a"
    INTERFACE_INCLUDE_DIRECTORIES "${_am9517_prefix}/include")
endif()

if(NOT TARGET am9517::board)
  add_library(am9517::board STATIC IMPORTED)
  set_target_properties(am9517::board PROPERTIES
    IMPORTED_LOCATION "${_am9517_prefix}/lib/libam9517_board.a"
    INTERFACE_INCLUDE_DIRECTORIES "${_am9517_prefix}/include")
endif()

if(NOT TARGET am9517::shared)
  add_library(am9517::shared SHARED IMPORTED)
  set_target_properties(am9517::shared PROPERTIES
    IMPORTED_LOCATION "${_am9517_prefix}/lib/libam9517.so.@VERSION@"
    IMPORTED_SONAME "libam9517.so.@MAJOR@"
    INTERFACE_INCLUDE_DIRECTORIES "${_am9517_prefix}/include")
endif()

unset(_am9517_prefix)
