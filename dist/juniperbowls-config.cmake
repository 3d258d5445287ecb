# find_package(juniperbowls) defines these imported targets:
#
#   juniperbowls::pie        the shared library: the calls of pie.h and pie_link.h
#   juniperbowls::pie_c      the static library of pie.h
#   juniperbowls::pie_link   the static library of pie_link.h, over pie_c
find_package(Threads REQUIRED)
get_filename_component(_juniperbowls_lib "${CMAKE_CURRENT_LIST_DIR}/../.." ABSOLUTE)
find_path(juniperbowls_INCLUDE_DIR pie.h HINTS "${_juniperbowls_lib}/../include" "${_juniperbowls_lib}/../../include" NO_DEFAULT_PATH)
foreach(_juniperbowls_target pie:SHARED:libpie.so pie_c:STATIC:libpie_c.a pie_link:STATIC:libpie_link.a)
    string(REPLACE ":" ";" _juniperbowls_target "${_juniperbowls_target}")
    list(GET _juniperbowls_target 0 _juniperbowls_name)
    list(GET _juniperbowls_target 1 _juniperbowls_kind)
    list(GET _juniperbowls_target 2 _juniperbowls_file)
    if(NOT TARGET juniperbowls::${_juniperbowls_name})
        add_library(juniperbowls::${_juniperbowls_name} ${_juniperbowls_kind} IMPORTED)
        set_target_properties(juniperbowls::${_juniperbowls_name} PROPERTIES
            IMPORTED_LOCATION "${_juniperbowls_lib}/${_juniperbowls_file}"
            INTERFACE_INCLUDE_DIRECTORIES "${juniperbowls_INCLUDE_DIR}")
    endif()
endforeach()
set_property(TARGET juniperbowls::pie PROPERTY INTERFACE_LINK_LIBRARIES Threads::Threads)
set_property(TARGET juniperbowls::pie_link PROPERTY INTERFACE_LINK_LIBRARIES "juniperbowls::pie_c;Threads::Threads")
