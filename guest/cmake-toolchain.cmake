# For CMake: cmake -DCMAKE_TOOLCHAIN_FILE=guest/cmake-toolchain.cmake .. builds programs for dthreads by dthreads-cc, beside which this
# file lies.
set(CMAKE_SYSTEM_NAME Generic)
set(CMAKE_SYSTEM_PROCESSOR riscv32)
# What many projects ask for before they use POSIX.
set(UNIX 1)

set(CMAKE_C_COMPILER "${CMAKE_CURRENT_LIST_DIR}/dthreads-cc")
set(CMAKE_CXX_COMPILER "${CMAKE_CURRENT_LIST_DIR}/dthreads-c++")
set(CMAKE_ASM_COMPILER "${CMAKE_CURRENT_LIST_DIR}/dthreads-cc")
set(CMAKE_AR riscv64-unknown-elf-ar CACHE FILEPATH "")
set(CMAKE_RANLIB riscv64-unknown-elf-ranlib CACHE FILEPATH "")
set(CMAKE_STRIP riscv64-unknown-elf-strip CACHE FILEPATH "")

# What a configuration and the tests of a project run, and the command itself for tests with other words.
set(DTHREADS_EXEC "${CMAKE_CURRENT_LIST_DIR}/dthreads-exec")
set(CMAKE_CROSSCOMPILING_EMULATOR "${DTHREADS_EXEC};--bound;1000000000000;--run")

# Libraries and headers of the host are none of the program's.
set(CMAKE_FIND_ROOT_PATH "${CMAKE_CURRENT_LIST_DIR}/out")
set(CMAKE_FIND_ROOT_PATH_MODE_PROGRAM NEVER)
set(CMAKE_FIND_ROOT_PATH_MODE_LIBRARY ONLY)
set(CMAKE_FIND_ROOT_PATH_MODE_INCLUDE ONLY)
set(CMAKE_FIND_ROOT_PATH_MODE_PACKAGE ONLY)
