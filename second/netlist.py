"""Gate lists, the answers of kind 4: read strictly, evaluated, in words and in Verilog. For the scripts of this project."""
from typing import NamedTuple

from rowtext import ALWAYS_ZERO

IN_A_LINE = 16  # wires that one line of Verilog declares


class Netlist(NamedTuple):
    """The gates of a matrix. Input bit j of word i has the number i·m + j, the gates are numbered on from there, and output bit b
    of word i stands at i·m + b of the carriers."""

    order: int
    degree: int
    gates: list  # the two numbers that each gate joins
    carriers: list  # of each output bit, or ALWAYS_ZERO

    def name(self, number):
        """x1[0] for bit 0 of input word 1, g4 for gate 4."""
        return bit_name("x", self.degree, number) if number < self.order * self.degree else f"g{number}"

    def numbered_gates(self):
        """(number, the number of the running result, the number of the input)"""
        return [(self.order * self.degree + k, *joined) for k, joined in enumerate(self.gates)]

    def outputs(self):
        """(name, the number that carries it)"""
        return [(bit_name("y", self.degree, k), carrier) for k, carrier in enumerate(self.carriers)]


def bit_name(letter, degree, number):
    return f"{letter}{number // degree}[{number % degree}]"


def read(order, degree, lines):
    """The list of the numbers of an answer's lines; ValueError where they are not of the form: 0 and the number of gates, so many
    pairs of two different numbers that are there already, and for each output bit a number that is there, or ALWAYS_ZERO."""
    bits = order * degree
    if not lines or len(lines[0]) != 2 or lines[0][0] != 0 or bits < 1:
        raise ValueError("no gate list")
    how_many = lines[0][1]
    gates, carriers = lines[1 : 1 + how_many], lines[1 + how_many :]
    if len(gates) != how_many or len(carriers) != bits:
        raise ValueError("not as many lines as gates and output bits")
    for k, joined in enumerate(gates):
        if len(joined) != 2 or joined[0] == joined[1] or max(joined) >= bits + k:
            raise ValueError(f"gate {bits + k} does not join two different smaller numbers")
    for k, carrier in enumerate(carriers):
        if len(carrier) != 1 or (carrier[0] >= bits + how_many and carrier[0] != ALWAYS_ZERO):
            raise ValueError(f"output bit {k} is carried by nothing")
    return Netlist(order, degree, gates, [carrier for (carrier,) in carriers])


def bits_of(degree, words):
    """The bits of several inputs or outputs, each a list of words: one number for each bit of each word, whose bit t is that of
    the input t."""
    places = [(i, j) for i in range(len(words[0])) for j in range(degree)]
    return [sum((word[i] >> j & 1) << t for t, word in enumerate(words)) for i, j in places]


def evaluated(netlist, bits):
    """The output bits, in the form of bits_of: all inputs pass a gate at once."""
    wires = list(bits)
    for one, other in netlist.gates:
        wires.append(wires[one] ^ wires[other])
    return [0 if carrier == ALWAYS_ZERO else wires[carrier] for carrier in netlist.carriers]


def in_words(netlist):
    """A sentence for each line of the answer."""
    yield f"two-input XOR gates: {len(netlist.gates)}"
    for number, running, joined in netlist.numbered_gates():
        yield f"g{number} joins {netlist.name(running)} and {netlist.name(joined)}"
    for name, carrier in netlist.outputs():
        yield f"{name} is always 0" if carrier == ALWAYS_ZERO else f"{name} is carried by {netlist.name(carrier)}"


def verilog(netlist, polynomial, entries):
    """A module with a port for each word: a wire and an assignment for each gate, an assignment for each output bit."""
    n, top = netlist.order, netlist.degree - 1
    lines = [" ".join(map(str, entries[k : k + n])) for k in range(0, n * n, n)]
    ports = [f"    input [{top}:0] x{i}" for i in range(n)] + [f"    output [{top}:0] y{i}" for i in range(n)]
    yield f"// y = M x over the polynomial {polynomial}, M of order {n}: {' / '.join(lines)}"
    yield f"// Two-input XOR gates: {len(netlist.gates)}"
    yield "module mixing_layer ("
    yield ",\n".join(ports)
    yield ");"
    wires = [f"g{number}" for number, *_ in netlist.numbered_gates()]
    for k in range(0, len(wires), IN_A_LINE):
        yield f"    wire {', '.join(wires[k : k + IN_A_LINE])};"
    for number, running, joined in netlist.numbered_gates():
        yield f"    assign g{number} = {netlist.name(running)} ^ {netlist.name(joined)};"
    for name, carrier in netlist.outputs():
        source = "1'b0" if carrier == ALWAYS_ZERO else netlist.name(carrier)
        yield f"    assign {name} = {source};"
    yield "endmodule"
