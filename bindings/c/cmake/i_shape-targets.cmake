# The targets i_shape::static and i_shape::shared over the folders i_shape_LIBRARY_DIR and i_shape_INCLUDE_DIR, and i_shape::i_shape, which
# is the shared library where BUILD_SHARED_LIBS is on or no static one is installed, and else the static one. A shared library that links the static one doesn't
# export its calls, so that another version in the same program isn't taken in place of it.
if(TARGET i_shape::i_shape)
  return()
endif()

# The files are named as on Linux where nothing else was said.
if(NOT DEFINED i_shape_STATIC_FILE)
  set(i_shape_STATIC_FILE libi_shape.a)
  set(i_shape_SHARED_FILE libi_shape.so)
  set(i_shape_IMPORT_FILE "")
endif()

add_library(i_shape::static STATIC IMPORTED GLOBAL)
set_target_properties(i_shape::static PROPERTIES
  IMPORTED_LOCATION "${i_shape_LIBRARY_DIR}/${i_shape_STATIC_FILE}"
  INTERFACE_INCLUDE_DIRECTORIES "${i_shape_INCLUDE_DIR}")
if(CMAKE_SYSTEM_NAME STREQUAL "Linux")
  set_property(TARGET i_shape::static PROPERTY INTERFACE_LINK_OPTIONS "LINKER:--exclude-libs,libi_shape.a")
endif()

add_library(i_shape::shared SHARED IMPORTED GLOBAL)
set_target_properties(i_shape::shared PROPERTIES
  IMPORTED_LOCATION "${i_shape_LIBRARY_DIR}/${i_shape_SHARED_FILE}"
  INTERFACE_INCLUDE_DIRECTORIES "${i_shape_INCLUDE_DIR}")
if(i_shape_IMPORT_FILE)
  set_property(TARGET i_shape::shared PROPERTY IMPORTED_IMPLIB "${i_shape_LIBRARY_DIR}/${i_shape_IMPORT_FILE}")
elseif(i_shape_SHARED_FILE STREQUAL "libi_shape.so")
  set_property(TARGET i_shape::shared PROPERTY IMPORTED_SONAME libi_shape.so.0.2)
endif()

add_library(i_shape::i_shape INTERFACE IMPORTED GLOBAL)
if(BUILD_SHARED_LIBS OR (i_shape_IS_INSTALLED AND NOT EXISTS "${i_shape_LIBRARY_DIR}/${i_shape_STATIC_FILE}"))
  target_link_libraries(i_shape::i_shape INTERFACE i_shape::shared)
else()
  target_link_libraries(i_shape::i_shape INTERFACE i_shape::static)
endif()
