# The most bytes of stack that a function, or a whole program, uses:
#
#     gdb -nx -batch -x bench/painted.py -ex 'painted PROGRAM INPUT [FUNCTION]'
#
# The stack below the function's entry is filled with one byte; when the function has returned, the lowest place that holds another byte
# tells how far down it, or any function below it, went. Every call of the function is measured, and the highest number printed. Without a
# function the program is measured from its first instruction to its end, so that the loader and the C library count too. Frames of more
# than a page are touched in each page, as the kit compiles them.
import gdb

PAINT = b"\xa5"
PAINTED = 1 << 20  # so many bytes are painted: more than any function measured here uses
ROOM = 4 << 20  # the stack is made so deep before the program runs: `cases` has its input of 2.4 MB there
PUSH = b"\x50"  # the instruction `push %rax`


def register(name):
    return int(gdb.parse_and_eval("(unsigned long)$" + name))


# The system grows a stack only for an instruction of the program's own, so one is lent to it and taken back.
def deepen(inferior, pc, sp):
    old = inferior.read_memory(pc, 1).tobytes()
    inferior.write_memory(pc, PUSH)
    gdb.execute(f"set $rsp = {sp - ROOM}")
    gdb.execute("stepi", to_string=True)
    gdb.execute(f"set $rip = {pc}")
    gdb.execute(f"set $rsp = {sp}")
    inferior.write_memory(pc, old)


def used(inferior, sp):
    below = inferior.read_memory(sp - PAINTED, PAINTED).tobytes()
    deep = len(below.lstrip(PAINT))
    if deep == PAINTED:
        raise gdb.GdbError("all of the painted stack was used")
    return deep


class Painted(gdb.Command):
    def __init__(self):
        super().__init__("painted", gdb.COMMAND_USER)

    def invoke(self, words, _):
        program, source, *function = gdb.string_to_argv(words)
        for setting in ("confirm off", "pagination off", "width 0", "print inferior-events off"):
            gdb.execute("set " + setting)
        gdb.execute("file " + program, to_string=True)
        gdb.execute(f"starti < {source} > /dev/null", to_string=True)
        inferior = gdb.selected_inferior()
        start = register("rsp")
        deepen(inferior, register("rip"), start)
        most = 0
        if function:
            gdb.execute(f"break *(char *)&'{function[0]}'", to_string=True)
            gdb.execute("continue", to_string=True)
            while inferior.pid:
                entry = register("rsp")
                back = int.from_bytes(inferior.read_memory(entry, 8).tobytes(), "little")
                inferior.write_memory(entry - PAINTED, PAINT * PAINTED)
                gdb.execute(f"tbreak *{back}", to_string=True)
                gdb.execute("continue", to_string=True)
                most = max(most, used(inferior, entry))
                gdb.execute("continue", to_string=True)
        else:
            inferior.write_memory(start - PAINTED, PAINT * PAINTED)
            gdb.execute("catch syscall exit_group", to_string=True)
            gdb.execute("continue", to_string=True)
            most = used(inferior, start)
            gdb.execute("kill", to_string=True)
        print(most)


Painted()
