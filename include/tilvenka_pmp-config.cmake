# find_package(tilvenka_pmp) gives the targets tilvenka_pmp::shared and tilvenka_pmp::archive, by where this file lies:
# /lib may be a link to /usr/lib.
get_filename_component(tilvenka_pmp_prefix "${CMAKE_CURRENT_LIST_DIR}" REALPATH)
get_filename_component(tilvenka_pmp_prefix "${tilvenka_pmp_prefix}/../../.." ABSOLUTE)
if(NOT TARGET tilvenka_pmp::shared)
    add_library(tilvenka_pmp::shared SHARED IMPORTED)
    set_target_properties(tilvenka_pmp::shared PROPERTIES
        IMPORTED_LOCATION "${tilvenka_pmp_prefix}/lib/libtilvenka_pmp.so.2"
        IMPORTED_SONAME libtilvenka_pmp.so.2
        INTERFACE_INCLUDE_DIRECTORIES "${tilvenka_pmp_prefix}/include")
    add_library(tilvenka_pmp::archive STATIC IMPORTED)
    set_target_properties(tilvenka_pmp::archive PROPERTIES
        IMPORTED_LOCATION "${tilvenka_pmp_prefix}/lib/libtilvenka_pmp.a"
        INTERFACE_INCLUDE_DIRECTORIES "${tilvenka_pmp_prefix}/include")
endif()
