# The installation of the archive. A prefix of `cmake --install` serves too: the files of CMake name the folders by the ways from their own, and that of
# pkg-config is written then, with the folders as they are, so that it leaves those of a system out of its flags.
include(GNUInstallDirs)
install(FILES include/i_shape.h include/i_shape.hpp DESTINATION "${CMAKE_INSTALL_INCLUDEDIR}")
# rpm looks only into a shared library that is executable
install(DIRECTORY lib/ DESTINATION "${CMAKE_INSTALL_LIBDIR}" PATTERN i_shape.pc EXCLUDE PATTERN i_shape-config.cmake EXCLUDE
  PATTERN "*.so.*" PERMISSIONS OWNER_READ OWNER_WRITE OWNER_EXECUTE GROUP_READ GROUP_EXECUTE WORLD_READ WORLD_EXECUTE)

file(RELATIVE_PATH i_shape_headers "${CMAKE_INSTALL_FULL_LIBDIR}" "${CMAKE_INSTALL_FULL_INCLUDEDIR}")
file(READ lib/cmake/i_shape/i_shape-config.cmake i_shape_words)
string(REPLACE "\"../include\"" "\"${i_shape_headers}\"" i_shape_words "${i_shape_words}")
file(WRITE "${CMAKE_CURRENT_BINARY_DIR}/i_shape-config.cmake" "${i_shape_words}")
install(FILES "${CMAKE_CURRENT_BINARY_DIR}/i_shape-config.cmake" DESTINATION "${CMAKE_INSTALL_LIBDIR}/cmake/i_shape")

foreach(i_shape_name INCLUDEDIR LIBDIR)
  set(i_shape_${i_shape_name} "${CMAKE_INSTALL_${i_shape_name}}")
  if(NOT IS_ABSOLUTE "${i_shape_${i_shape_name}}")
    set(i_shape_${i_shape_name} "\${prefix}/${i_shape_${i_shape_name}}")
  endif()
endforeach()
file(READ lib/pkgconfig/i_shape.pc i_shape_words)
string(REGEX REPLACE "prefix=.*\n\n" "prefix=@CMAKE_INSTALL_PREFIX@\nincludedir=${i_shape_INCLUDEDIR}\nlibdir=${i_shape_LIBDIR}\n\n"
  i_shape_words "${i_shape_words}")
file(WRITE "${CMAKE_CURRENT_BINARY_DIR}/i_shape.pc.in" "${i_shape_words}")
install(CODE "get_filename_component(CMAKE_INSTALL_PREFIX \"\${CMAKE_INSTALL_PREFIX}\" ABSOLUTE)
configure_file(\"${CMAKE_CURRENT_BINARY_DIR}/i_shape.pc.in\" \"${CMAKE_CURRENT_BINARY_DIR}/i_shape.pc\" @ONLY)")
install(FILES "${CMAKE_CURRENT_BINARY_DIR}/i_shape.pc" DESTINATION "${CMAKE_INSTALL_LIBDIR}/pkgconfig")

file(WRITE "${CMAKE_CURRENT_BINARY_DIR}/uninstall.cmake" [[
file(STRINGS "${CMAKE_CURRENT_LIST_DIR}/install_manifest.txt" names)
foreach(name IN LISTS names)
  file(REMOVE "$ENV{DESTDIR}${name}")
endforeach()
]])
add_custom_target(uninstall COMMAND "${CMAKE_COMMAND}" -P uninstall.cmake)
