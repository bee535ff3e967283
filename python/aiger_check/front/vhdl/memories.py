"""Memories of a netlist of ghdl's: a chain of ports, from the memory and back to it."""

from typing import TYPE_CHECKING, Dict, List

from aiger_check.front.vhdl.netlist import Gate, NotKnown

if TYPE_CHECKING:
    from aiger_check.front.vhdl.verilog import Writer

PORTS = ("$mem_rd", "$mem_rd_sync", "$mem_wr_sync")


def chain(writer: "Writer", memory: Gate) -> List[Gate]:
    """The ports of a memory, in their order: what is written later counts."""
    after: Dict[int, Gate] = {}
    for port in writer.module.gates:
        net = port.inputs.get("$iport")
        if net and net.number in after:
            raise NotKnown(f"{where(memory)}a memory has ports that are not known")
        if net:
            after[net.number] = port
    found: List[Gate] = []
    gate = after.get(memory.outputs["$oport"].number)
    while gate is not None and gate is not memory:
        if gate.kind not in PORTS or len(found) > len(after):
            raise NotKnown(f"{where(memory)}a memory has ports that are not known")
        found.append(gate)
        gate = after.get(gate.outputs["$oport"].number)
    if gate is None:
        raise NotKnown(f"{where(memory)}a memory has ports that are not known")
    return found


def where(gate: Gate) -> str:
    return f"{gate.place[0]}:{gate.place[1]}: " if gate.place[1] else ""


def memory_lines(writer: "Writer", memory: Gate) -> List[str]:
    """The memory, and all that reads and writes it."""
    ports = chain(writer, memory)
    data = {port.outputs["$data"].width for port in ports if "$data" in port.outputs}
    data |= {port.inputs["$data"].width for port in ports if "$data" in port.inputs}
    whole = memory.outputs["$oport"].width
    if len(data) != 1 or whole % min(data):
        raise NotKnown(f"{where(memory)}a memory has words that are not known")
    width = data.pop()
    name = writer.unique("_".join(memory.path) or f"aiger_check_memory{memory.outputs['$oport'].number}")
    depth = whole // width
    lines = [f"  reg [{width - 1}:0] {name} [0:{depth - 1}];"]
    lines += first_words(writer, memory, name, width, depth)
    for port in ports:
        if port.kind == "$mem_rd":
            lines.append(f"  assign {writer.net(port.outputs['$data'])} = {name}[{writer.net(port.inputs['$addr'])}];")
    clocks = {port.inputs["$clk"] for port in ports if "$clk" in port.inputs}
    if len(clocks) > 1:
        raise NotKnown(f"{where(memory)}a memory with several clocks is not taken")
    for clock in clocks:
        edge, signal = writer.edge(clock)
        lines += [f"  always @({edge} {signal}) begin", *steps(writer, ports, name), "  end"]
    return lines


def steps(writer: "Writer", ports: List[Gate], name: str) -> List[str]:
    """What is done at an edge."""
    lines = []
    for port in (it for it in ports if "$clk" in it.inputs):
        word, enabled = f"{name}[{writer.net(port.inputs['$addr'])}]", writer.net(port.inputs["$en"])
        if port.kind == "$mem_wr_sync":
            lines.append(f"    if ({enabled}) {word} <= {writer.net(port.inputs['$data'])};")
        else:
            lines.append(f"    if ({enabled}) {writer.net(port.outputs['$data'])} <= {word};")
    return lines


def first_words(writer: "Writer", memory: Gate, name: str, width: int, depth: int) -> List[str]:
    """What stands in a memory first."""
    if "$init" not in memory.inputs:
        return []
    bits = writer.constants.bits(memory.inputs["$init"])
    if bits is None or len(bits) != width * depth:
        raise NotKnown(f"{where(memory)}a memory has first words that are no constants")
    words = [bits[len(bits) - width * (at + 1) : len(bits) - width * at] for at in range(depth)]
    known = [(at, word) for at, word in enumerate(words) if set(word) != {"x"}]
    if any("x" in word for _, word in known):
        raise NotKnown(f"{where(memory)}a memory has first words that are known in part")
    return ["  initial begin", *(f"    {name}[{at}] = {width}'b{word};" for at, word in known), "  end"]
