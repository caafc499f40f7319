# For FetchContent and add_subdirectory: the library of this folder. As a project of its own, the check of its answers, and its installation by the folders of
# GNUInstallDirs: cmake -S . -B build && cmake --install build. `cmake --build build --target uninstall` removes what that has put there.
cmake_minimum_required(VERSION 3.13)
project(i_shape LANGUAGES NONE)
include("${CMAKE_CURRENT_SOURCE_DIR}/lib/cmake/i_shape/i_shape-config.cmake")

if(CMAKE_SOURCE_DIR STREQUAL CMAKE_CURRENT_SOURCE_DIR)
  enable_language(C)
  enable_testing()
  add_subdirectory(check)
  include(install.cmake)
endif()
