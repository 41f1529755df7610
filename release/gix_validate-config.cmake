# find_package(gix_validate @MAJOR@) gives the target gix_validate::gix_validate. It is
# gix_validate::shared if BUILD_SHARED_LIBS is on, and otherwise gix_validate::static.
#
# In an unpacked release a project that enables the language C also gets gix_validate::source,
# which compiles gix_validate.c with what links it. For systems without libraries,
# gix_validate::gix_validate is that one.
set(_gix_validate_prefix "${CMAKE_CURRENT_LIST_DIR}/../../..")
get_filename_component(_gix_validate_include "${_gix_validate_prefix}/include" ABSOLUTE)
get_filename_component(_gix_validate_source "${_gix_validate_prefix}/c/gix_validate.c" ABSOLUTE)
get_property(_gix_validate_languages GLOBAL PROPERTY ENABLED_LANGUAGES)
get_filename_component(_gix_validate_libraries "${CMAKE_CURRENT_LIST_DIR}/../.." ABSOLUTE)
if(NOT TARGET gix_validate::gix_validate)
  add_library(gix_validate::static STATIC IMPORTED)
  set_target_properties(gix_validate::static PROPERTIES
    IMPORTED_LOCATION "${_gix_validate_libraries}/libgix_validate_c.a"
    INTERFACE_INCLUDE_DIRECTORIES "${_gix_validate_include}")
  add_library(gix_validate::shared SHARED IMPORTED)
  set_target_properties(gix_validate::shared PROPERTIES
    IMPORTED_LOCATION "${_gix_validate_libraries}/libgix_validate_c.so.@MAJOR@"
    IMPORTED_SONAME libgix_validate_c.so.@MAJOR@
    INTERFACE_INCLUDE_DIRECTORIES "${_gix_validate_include}")
  set(_gix_validate_kind static)
  if(BUILD_SHARED_LIBS)
    set(_gix_validate_kind shared)
  endif()
  if(EXISTS "${_gix_validate_source}" AND C IN_LIST _gix_validate_languages)
    add_library(gix_validate::source INTERFACE IMPORTED)
    set_target_properties(gix_validate::source PROPERTIES
      INTERFACE_SOURCES "${_gix_validate_source}"
      INTERFACE_INCLUDE_DIRECTORIES "${_gix_validate_include}")
  endif()
  if(NOT "${CMAKE_SYSTEM_NAME} ${CMAKE_SYSTEM_PROCESSOR} ${CMAKE_SIZEOF_VOID_P}" STREQUAL "Linux x86_64 8")
    set(_gix_validate_kind source)
    if(NOT TARGET gix_validate::source)
      set(gix_validate_FOUND FALSE)
      set(gix_validate_NOT_FOUND_MESSAGE
        "This system has no libraries. Find an unpacked release, and enable the language C to compile it.")
    endif()
  endif()
  add_library(gix_validate::gix_validate INTERFACE IMPORTED)
  set_property(TARGET gix_validate::gix_validate PROPERTY
    INTERFACE_LINK_LIBRARIES gix_validate::${_gix_validate_kind})
endif()
unset(_gix_validate_prefix)
unset(_gix_validate_include)
unset(_gix_validate_source)
unset(_gix_validate_languages)
unset(_gix_validate_libraries)
unset(_gix_validate_kind)
