"""What each exported call takes of the stack at most, for any input, told from the code of an archive or an object file for x86-64.

Prints a line for each exported function: its name, and the bytes from the caller's stack pointer at the call down to the lowest one that
may be written. Each function is followed along every way through it, and with it how deep the stack pointer stands; at a call, what the
called function takes comes on top. Below the deepest stack pointer lie the 128 bytes that the System V convention lets a function write
without moving it: they count whether they are written or not.

What this does not cover is refused, with the reason: a function that comes back to itself, a call through a pointer or out of the file,
a stack pointer that moves by what is no number or stands at two depths at one place, code in no section of its own, a line of the
listing that is not known. It trusts the compiler in three things: that an address taken of a local variable is used inside that variable,
that a jump by a table reads one of the table's own entries, and that a called function leaves the six registers as they were that the
convention has it keep.

usage: bounds.py FILE
"""
import pathlib
import re
import subprocess
import sys

SLOT = 8  # bytes that a call or a push puts on the stack
RED_ZONE = 128

MEMBER = re.compile(r'.+: +file format (\S+)$')
SYMBOL = re.compile(r'[0-9a-f]+ (.{7}) (.+)\t[0-9a-f]+ +(?:\.(?:hidden|internal|protected) )?(.+)$')
NO_SYMBOL = re.compile(r'In archive .*:|SYMBOL TABLE:|')
CODE = re.compile(r'Disassembly of section (.+):$')
FUNCTION = re.compile(r'[0-9a-f]+ <(.+)>:$')
INSTRUCTION = re.compile(r' *([0-9a-f]+):\t(?:(?:bnd|notrack|rex\S*|data16|addr32|[c-gs]s|lock|rep\w*|xacquire|xrelease) +)*(\w+) *([^#]*)')
RELOCATION = re.compile(r'\s*[0-9a-f]+:?\s+R_\S+\s+(.+?)([-+]0x[0-9a-f]+)?$')
TABLE = re.compile(r'RELOCATION RECORDS FOR \[(.+)\]:$')
ENTRY = re.compile(r'([0-9a-f]+) (R_\S+) +(.+?)(?:\+0x([0-9a-f]+))?$')

REGISTER = r'%r(?:[a-d]x|[sd]i|bp|8|9|1[0-5])'  # of 64 bits
# the registers that a called function keeps, by each name that a part of one has; and operations that write none of these but the one
# that is their last operand
KEPT = {part: '%r' + name for name, parts in {'bx': 'rbx ebx bx bl bh', 'bp': 'rbp ebp bp bpl'}.items() for part in parts.split()}
KEPT |= {f'r{n}{part}': f'%r{n}' for n in range(12, 16) for part in ('', 'd', 'w', 'b')}
WRITES_LAST = re.compile(r'(mov|lea|add|sub|adc|sbb|and|or|xor|not|neg|inc|dec|shl|shr|sar|rol|ror|shld|shrd|imul|mul|div|cmp|test|push|pop)'
                         r'[bwlq]?|mov[sz][bwl][wlq]|set\w+|cmov\w+|call|j\w+|nop[wlq]?|mov[au]p[sd]|movdq[au]|xorp[sd]|pxor')
LAST_OPERAND = re.compile(r'(?:.*,)?%(\w+)')

STACK_POINTER = re.compile(r'(?<!\()%rsp\b|%(?:esp|spl?)\b')
MOVED = re.compile(r'(sub|add) \$0x([0-9a-f]+),%rsp')
# a frame given back so that the flags stay as they are; one is never taken so
GIVEN_BACK = re.compile(r'lea 0x([0-9a-f]+)\(%rsp\),%rsp')
UNKNOWN = re.compile(r'(push|pop)([afw]| %(?!r)| %r\d+[bdw])|enter|leave|loop|xbegin|l(call|jmp|ret)|iret|ret\w')
BELOW = re.compile(r'-0x([0-9a-f]+)\(%rsp')


class Refused(Exception):
    pass


class Instruction:
    def __init__(self, address, operation, operands):
        self.address = int(address, 16)
        self.operation = operation.removesuffix('q') if operation in ('callq', 'jmpq', 'retq', 'pushq', 'popq') else operation
        self.operands = operands.strip()
        self.leads_to = self.addend = None  # the function or section that its relocation names, and how far from its start
        self.text = f'{self.operation} {self.operands}'


class Function:
    def __init__(self):
        self.deepest = 0  # how deep the stack pointer stands in its own code
        self.calls = []  # functions that it calls, each with how deep the stack pointer stands there
        self.table = []  # of places in its own code: where an entry stands, and the place and this distance on together


# ---- the listing


def named(target):
    """The function that a relocation leads into, where it leads into one."""
    return target.removeprefix('.text.')


def read_symbol(line, exported):
    match = SYMBOL.match(line)
    if not match and not NO_SYMBOL.fullmatch(line):
        raise Refused(f'{line}: is not known')
    if match and match[2].startswith('.text') and not match[1].startswith('l'):
        exported.append(match[3])


def read_code(listing):
    """The functions of a listing by objdump -tdr, each with its instructions, and the names that the file exports."""
    code, exported, section = {}, [], None
    for line in listing:
        if match := MEMBER.match(line):
            section = None
            if match[1] != 'elf64-x86-64':
                raise Refused(f'{line}: is not x86-64')
        elif match := CODE.match(line):
            section = match[1]
        elif section is None:
            read_symbol(line, exported)
        elif match := FUNCTION.match(line):
            if match[1] in code or section != '.text.' + match[1]:
                raise Refused(f'{match[1]}: stands twice, or has no section of its own')
            instructions = code[match[1]] = []
        elif match := INSTRUCTION.match(line):
            instructions.append(Instruction(*match.groups()))
        elif match := RELOCATION.match(line):
            if instructions[-1].leads_to:
                raise Refused(f'{instructions[-1].text}: has two relocations')
            instructions[-1].leads_to, instructions[-1].addend = match.groups()
        elif line:
            raise Refused(f'{line.strip()}: is not known')
    return code, exported


def read_tables(listing, functions):
    """Addresses of code stand in a table of the function that they lie in, and nowhere else: so a jump by a table stays inside."""
    for line in listing:
        if match := TABLE.match(line):
            section = match[1]
        elif (match := ENTRY.match(line)) and not section.startswith(('.text', '.eh_frame', '.llvm', '.debug')):
            to = named(match[3])
            if to in functions and (section != '.rodata.' + to or match[2] != 'R_X86_64_PC32'):
                raise Refused(f'{section}: holds the address of {to}')
            if to in functions:
                functions[to].table.append((int(match[1], 16), int(match[4] or '0', 16)))


# ---- the way through a function


def descent(name, instruction):
    """How far an instruction takes the stack pointer down."""
    if moved := MOVED.fullmatch(instruction.text):
        by = int(moved[2], 16)
        by -= by >> 63 << 64  # one below 0 is printed as 64 bits
        return by if moved[1] == 'sub' else -by
    if given_back := GIVEN_BACK.fullmatch(instruction.text):
        return -int(given_back[1], 16)
    read_alone = re.fullmatch(r'mov %rsp,%r\w+', instruction.text)
    if UNKNOWN.match(instruction.text) or STACK_POINTER.search(instruction.operands) and not read_alone:
        raise Refused(f'{name}: the stack pointer moves by {instruction.text}, which is not known')
    if any(int(below, 16) > RED_ZONE for below in BELOW.findall(instruction.operands)):
        raise Refused(f'{name}: {instruction.text} lies too far below the stack pointer')
    return {'push': SLOT, 'pop': -SLOT}.get(instruction.operation, 0)


class Way:
    """One function, followed from its start."""

    def __init__(self, name, instructions, functions):
        self.name, self.instructions, self.functions = name, instructions, functions
        self.function = functions[name]
        self.places = {instruction.address: place for place, instruction in enumerate(instructions)}
        self.depths = {}
        self.todo = [(0, SLOT)]
        self.starts_held = None

    def follow(self):
        while self.todo:
            self.step(*self.todo.pop())

    def table_places(self):
        """Where the function's tables lead. An entry has the distance of its place from the start of its table, which the code names."""
        starts = [int(i.addend or '0', 16) + 4 for i in self.instructions if i.leads_to == '.rodata.' + self.name]
        for at, entry in self.function.table:
            start = max((start for start in starts if start <= at), default=None)
            if start is None or entry - (at - start) not in self.places:
                raise Refused(f'{self.name}: the entry at {at:x} of its table leads to no instruction')
            yield self.places[entry - (at - start)]

    def start_named(self, place):
        """The register in which an instruction puts the start of a table of this function."""
        instruction = self.instructions[place]
        named_in = re.fullmatch(rf'lea 0x0\(%rip\),({REGISTER})', instruction.text)
        return named_in[1] if named_in and instruction.leads_to == '.rodata.' + self.name else None

    def jumps_by_table(self, place):
        """Whether a jump to an address goes by a table of this function: its start is named, an entry is read, and the start is added to
        it. Moves between other registers may stand behind that. No jump leads into the middle of it. The start may have been named
        before, in a register that is kept, as long as it was on every way that leads here."""
        if not (to := re.fullmatch(rf'jmp \*({REGISTER})', self.instructions[place].text)):
            return False
        add = place - 1
        while add > 1 and (move := re.fullmatch(rf'mov {REGISTER},({REGISTER})', self.instructions[add].text)) and move[1] != to[1]:
            add -= 1
        if add < 2:
            return False
        if not (added := re.fullmatch(rf'add ({REGISTER}),{to[1]}', self.instructions[add].text)) or added[1] == to[1]:
            return False
        if not re.fullmatch(rf'movslq (?:0x0)?\({added[1]},{REGISTER},4\),{to[1]}', self.instructions[add - 1].text):
            return False
        begins = add if added[1] in self.held()[add - 1] else add - 1 if self.start_named(add - 2) == added[1] else None
        return begins is not None and not any(begins <= entered <= place for entered in self.jumped_to())

    def held(self):
        """The kept registers that hold the start of a table, for each place: whichever way led there, it was named and not written
        since."""
        if self.starts_held is None:
            self.starts_held = {0: frozenset()}
            todo = [0]
            while todo:
                place = todo.pop()
                after = self.held_after(place, self.starts_held[place])
                for to in self.places_after(place):
                    met = after & self.starts_held.get(to, after)
                    if self.starts_held.get(to) != met:
                        self.starts_held[to] = met
                        todo.append(to)
        return self.starts_held

    def held_after(self, place, before):
        instruction = self.instructions[place]
        if not WRITES_LAST.fullmatch(instruction.operation):
            return frozenset()
        last = LAST_OPERAND.fullmatch(instruction.operands)
        written = KEPT.get(last[1]) if last else None
        return before - {written} | ({written} if written and self.start_named(place) == written else frozenset())

    def places_after(self, place):
        """The places in this function that may come after one, as far as jumps by a table stay inside."""
        instruction = self.instructions[place]
        after = [] if instruction.operation in ('ret', 'ud2', 'jmp') or place + 1 == len(self.instructions) else [place + 1]
        if not instruction.operation.startswith('j'):
            return after
        if instruction.operands.startswith('*'):
            return after + list(self.table_places())
        to = re.match(r'([0-9a-f]+) <', instruction.operands)
        inside = not instruction.leads_to and to and int(to[1], 16) in self.places
        return after + ([self.places[int(to[1], 16)]] if inside else [0] if named(instruction.leads_to or '') == self.name else [])

    def jumped_to(self):
        """Where jumps inside the function lead."""
        for instruction in self.instructions:
            if instruction.operation.startswith('j') and (to := re.match(r'([0-9a-f]+) <', instruction.operands)):
                yield self.places.get(int(to[1], 16), -1)
        yield from self.table_places()

    def step(self, place, depth):
        if place == len(self.instructions):
            raise Refused(f'{self.name}: runs over its end')
        instruction = self.instructions[place]
        if self.depths.setdefault(place, depth) != depth:
            raise Refused(f'{self.name}: the stack pointer stands at two depths at {instruction.address:x}')
        depth += descent(self.name, instruction)
        self.function.deepest = max(self.function.deepest, depth)
        for to in self.ways_on(place, instruction, depth):
            if self.depths.get(to) != depth:
                self.todo.append((to, depth))

    def ways_on(self, place, instruction, depth):
        """The places in this function that may come next."""
        operation = instruction.operation
        if operation == 'ret':
            self.leave(depth)
            return []
        if operation == 'ud2':
            return []
        if operation == 'call':
            self.call(instruction, depth)
        elif operation.startswith('j'):
            return self.jump(place, instruction, depth) + ([] if operation == 'jmp' else [place + 1])
        elif instruction.leads_to and named(instruction.leads_to) in self.functions:
            raise Refused(f'{self.name}: takes the address of {named(instruction.leads_to)}')
        return [place + 1]

    def call(self, instruction, depth):
        if instruction.operands.startswith('*'):
            raise Refused(f'{self.name}: calls through a pointer')
        self.function.calls.append((self.target(instruction), depth))

    def jump(self, place, instruction, depth):
        if instruction.operands.startswith('*'):
            if not self.function.table or not self.jumps_by_table(place):
                raise Refused(f'{self.name}: jumps through a pointer')
            return list(self.table_places())
        to = self.target(instruction)
        if to == self.name:
            return [0 if instruction.leads_to else self.places[int(instruction.operands.split()[0], 16)]]
        self.leave(depth)
        self.function.calls.append((to, 0))
        return []

    def target(self, instruction):
        to = named(instruction.leads_to) if instruction.leads_to else re.search(r'<(.+?)(?:\+0x[0-9a-f]+)?>', instruction.operands)[1]
        if to not in self.functions:
            raise Refused(f'{self.name}: calls {to}, which is not in this file')
        if instruction.leads_to and instruction.addend != '-0x4':
            raise Refused(f'{self.name}: calls into the middle of {to}')
        return to

    def leave(self, depth):
        if depth != SLOT:
            raise Refused(f'{self.name}: leaves the stack pointer {depth - SLOT} bytes too low')


# ---- the answer


def deepest(name, functions, above=()):
    if name in above:
        raise Refused(f'{name}: comes back to itself')
    function = functions[name]
    return max([function.deepest] + [depth + deepest(to, functions, above + (name,)) for to, depth in function.calls])


def objdump(option, file):
    tool = pathlib.Path(__file__).parents[2] / 'bin' / 'with-x86-64'
    run = subprocess.run([tool, 'objdump', option, '--no-show-raw-insn', file], check=True, stdout=subprocess.PIPE, text=True)
    return run.stdout.splitlines()


def bounds(file):
    code, exported = read_code(objdump('-tdr', file))
    functions = {name: Function() for name in code}
    read_tables(objdump('-r', file), functions)
    for name, instructions in code.items():
        Way(name, instructions, functions).follow()
    for name in exported:
        if name not in functions:
            raise Refused(f'{name}: has no code of its own')
        yield name, deepest(name, functions) + RED_ZONE


if len(sys.argv) != 2:
    sys.exit('usage: bounds.py FILE')
try:
    for line in bounds(sys.argv[1]):
        print(*line)
except Refused as reason:
    sys.exit(f'bounds: {reason}')
except subprocess.CalledProcessError:
    sys.exit(f'bounds: no listing of {sys.argv[1]}')
