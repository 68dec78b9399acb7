# dwv_verify(TARGET..): after each link the program or library is checked, and the build fails if it is not sound.
# With DWV_WARN the fault is printed and the build goes on.
find_program(DWV_EXPLAIN NAMES dwv-explain)
option(DWV_WARN "Only print faults of dwv" OFF)
function(dwv_verify)
    if(NOT DWV_EXPLAIN)
        message(WARNING "dwv is not installed: nothing is verified")
        return()
    endif()
    foreach(target IN LISTS ARGN)
        if(DWV_WARN)
            add_custom_command(TARGET ${target} POST_BUILD
                COMMAND sh -c "\"$1\" \"$2\" || true" sh "${DWV_EXPLAIN}" "$<TARGET_FILE:${target}>" VERBATIM)
        else()
            add_custom_command(TARGET ${target} POST_BUILD
                COMMAND "${DWV_EXPLAIN}" "$<TARGET_FILE:${target}>" VERBATIM)
        endif()
    endforeach()
endfunction()
