# find_package(chaffwheel), then target_link_libraries(HOST chaffwheel::chaffwheel). The library is for x86-64 Linux.
get_filename_component(chaffwheel_prefix "${CMAKE_CURRENT_LIST_DIR}/../../.." ABSOLUTE)
if(NOT TARGET chaffwheel::chaffwheel)
  add_library(chaffwheel::chaffwheel STATIC IMPORTED)
  set_target_properties(chaffwheel::chaffwheel PROPERTIES
    IMPORTED_LOCATION "${chaffwheel_prefix}/lib/libchaffwheel.a"
    INTERFACE_INCLUDE_DIRECTORIES "${chaffwheel_prefix}/include")
endif()
