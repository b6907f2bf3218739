"""The Verilog of a bench that plays a trace or a script on a design as it stands: the text of `vidi-tools bench`, as lists of lines."""
from vidi_tools import store_kit
from vidi_tools.store_kit import span

KINDS = {"send": 0, "take": 1, "all": 2, "wait": 3, "after": 4}
END = 5
ROOM = 100  # cycles that are played behind the last event of a trace, where gates are held


class Bench:
    """What a bench plays, on which pins. `way` is packets, clocks or cycles; of a script `steps` has those of each channel."""

    def __init__(self, plan, channels, way, widths):
        self.plan, self.channels, self.way, self.widths = plan, channels, way, widths
        self.trace, self.steps, self.cycles, self.rest = None, None, 50000, 0
        self.zeros, self.params, self.name = [], [], "bench"

    def pin(self, port):
        """The net at a port of the design."""
        return f"pin_{port}"

    def each(self):
        """The channels with their numbers."""
        return [(channel.number, channel) for channel in self.channels]


def replayer(bench, channel):
    """The module vidi_q_N of `vidi wrap`: it offers a channel's next event once the completions before it have come."""
    others = [other for other, _ in bench.each()]
    ports = ["input clk", "input more", *(f"input [31:0] n{at}" for at in others), *(f"input d{at}" for at in others)]
    counted = [f"(c{at} >= n{at})" for at in others]
    shown = []
    if channel.is_inward:
        ports += [f"input {span(width)}s{at}" for at, width in enumerate(channel.widths)] + ["output kv", "input kr"]
        ports += [f"output {span(width)}k{at}" for at, width in enumerate(channel.widths)] + ["output pop"]
        shown = [f"  assign kv = {' & '.join(['more', *counted])};"]
        shown += [f"  assign k{at} = kv ? s{at} : {width}'d0;" for at, width in enumerate(channel.widths)] + ["  assign pop = kv & kr;"]
    else:
        ports += ["input sv", "output sr", "output pop"]
        shown = [f"  assign sr = {' & '.join(['more', *counted])};", "  assign pop = sv & sr;"]
    yield f"module vidi_q_{channel.number} (" + ", ".join(ports) + ");"
    yield from (f"  reg [31:0] c{at};" for at in others)
    yield from shown
    yield "  always @(posedge clk) begin"
    yield from (f"    c{at} <= c{at} + d{at};" for at in others)
    yield "  end\nendmodule"


def replayers(bench):
    """The instances of the replayers, and what they are given."""
    for at, channel in bench.each():
        yield f"  reg more_{at};\n  wire pop_{at};"
        yield from (f"  reg [31:0] need_{at}_{other};" for other, _ in bench.each())
        yield from (f"  reg {span(width)}{name};" for name, width in zip(channel.contents("feed"), channel.widths) if channel.is_inward)
        joins = [f".clk(clk), .more(more_{at})", *(f".n{other}(need_{at}_{other})" for other, _ in bench.each()),
                 *(f".d{other}(pop_{other})" for other, _ in bench.each())]
        valid, ready = bench.pin(channel.valid), bench.pin(channel.ready)
        if channel.is_inward:
            joins += [f".s{place}({name})" for place, name in enumerate(channel.contents("feed"))] + [f".kv({valid}), .kr({ready})"]
            joins += [f".k{place}({bench.pin(port)})" for place, port in enumerate(channel.ports)]
        else:
            joins += [f".sv({valid}), .sr({ready})"]
        yield f"  vidi_q_{at} q_{at} (" + ", ".join(joins + [f".pop(pop_{at})"]) + ");"


def pins(bench):
    """The nets at the design's ports, and the design."""
    plan, joins = bench.plan, [f".{bench.plan.clock}(clk)"]
    for _, channel in bench.each():
        given = "wire" if bench.way == "clocks" else "reg"
        sides = [(channel.valid, 1, channel.is_inward), (channel.ready, 1, not channel.is_inward)]
        sides += [(port, width, channel.is_inward) for port, width in zip(channel.ports, channel.widths)]
        for port, width, is_given in sides:
            yield f"  {given if is_given else 'wire'} {span(width)}{bench.pin(port)};"
            joins.append(f".{port}({bench.pin(port)})")
    if plan.reset:
        yield f"  reg {bench.pin(plan.reset[0])};"
        joins.append(f".{plan.reset[0]}({bench.pin(plan.reset[0])})")
    joins += [f".{port}({bench.widths[port]}'d{tied})" if port in bench.widths else f".{port}({tied})" for port, tied in plan.ties.items()]
    values = f" #({', '.join(f'.{name}({value})' for name, value in bench.params)})" if bench.params else ""
    yield f"  {plan.top}{values} dut (" + ", ".join(joins) + ");"


def state(bench):
    """What the bench keeps of each channel: the row, the recorder's side of it, and counts."""
    yield "  reg clk, off, is_over;\n  integer cycle, idle, came, broken;"
    joins = [".clk(clk), .off(off)"]
    for at, channel in bench.each():
        yield f"  reg v_{at}, r_{at}, gate_{at}, flying_{at}, held_{at}, shown_{at}, x_{at};\n  integer started_{at}, ended_{at};"
        for name, old, width in zip(channel.contents("d"), channel.contents("last"), channel.widths):
            yield f"  reg {span(width)}{name}, {old};"
        joins += [f".v_{at}(shown_{at})", f".r_{at}(r_{at})"] + [f".{name}({name})" for name in channel.contents("d")]
    yield f'  vidi_store #(.FILE("{bench.name}.hex"), .SHOW(1)) store ({", ".join(joins)});'


def tables(bench):
    """The memories that hold a trace: of each packet its gap and its masks, of each channel contents, and in which packets it starts and ends."""
    trace, count = bench.trace, len(bench.channels)
    yield f"  integer packets;\n  reg [15:0] gap;\n  reg {span(count)}starting, ending;"
    yield f"  reg [{2 * count + 15}:0] packet [0:{len(trace.packets)}];\n  integer begins [0:{len(trace.packets)}];"
    for at, channel in bench.each():
        starts, ends = (max(1, sum(channel.name in packet[side] for packet in trace.packets)) for side in (0, 1))
        yield f"  integer starts_{at}, ends_{at};\n  integer start_{at} [0:{starts}];\n  integer end_{at} [0:{ends}];"
        yield f"  integer starts_before_{at} [0:{len(trace.packets)}];\n  integer ends_before_{at} [0:{len(trace.packets)}];"
        yield from (f"  reg {span(width)}{name} [0:{starts}];" for name, width in zip(channel.contents("s"), channel.widths))


def packet_lines(bench):
    """The statements that fill the memories: of each packet the gap, the channels that start and those that end, and contents."""
    trace, count, places = bench.trace, len(bench.channels), {channel.name: 0 for channel in bench.channels}
    for number, packet in enumerate(trace.packets):
        starts, ends = (sum(1 << at for at, channel in bench.each() if channel.name in names) for names in (packet.starts, packet.ends))
        word = (packet.gap << count | starts) << count | ends
        yield f"      packet[{number}] = {2 * count + 16}'h{word:x};"
        for channel in bench.channels:
            if channel.name in packet.starts:
                for name, width, value in zip(channel.contents("s"), channel.widths, packet.starts[channel.name]):
                    yield f"      {name}[{places[channel.name]}] = {width}'h{value:x};"
                places[channel.name] += 1


def loading(bench):
    """The task that takes the whole trace."""
    yield "  task load;\n    begin"
    yield from packet_lines(bench)
    yield "      " + " ".join(f"starts_{at} = 0; ends_{at} = 0;" for at, _ in bench.each())
    yield f"      for (packets = 0; packets < {len(bench.trace.packets)}; packets = packets + 1) begin"
    yield "        {gap, starting, ending} = packet[packets];"
    yield "        begins[packets] = packets == 0 ? gap : begins[packets - 1] + 1 + gap;"
    for at, _ in bench.each():
        one = f"[{at}]" if len(bench.channels) > 1 else ""
        yield f"        starts_before_{at}[packets] = starts_{at}; ends_before_{at}[packets] = ends_{at};"
        yield f"        if (starting{one}) begin start_{at}[starts_{at}] = packets; starts_{at} = starts_{at} + 1; end"
        yield f"        if (ending{one}) begin end_{at}[ends_{at}] = packets; ends_{at} = ends_{at} + 1; end"
    yield "      end\n    end\n  endtask"


def conditions(bench):
    """The functions that tell whether a packet may come, and whether all of the trace has."""
    behind = " && ".join(f"started_{at} >= starts_before_{at}[p] && ended_{at} >= ends_before_{at}[p]" for at, _ in bench.each())
    reached = "begins[p] <= cycle && " if bench.way == "cycles" else ""
    yield "  function may;  // whether all before packet p has come" + (", and its cycle" if reached else "")
    yield f"    input integer p;\n    may = {reached}{behind};\n  endfunction"
    ended = " && ".join(f"started_{at} >= starts_{at} && ended_{at} >= ends_{at}" for at, _ in bench.each())
    yield f"  function has_ended;\n    input unused;\n    has_ended = {ended};\n  endfunction"


def offer_by_clocks(bench, channel):
    """What a channel's replayer is given: its next event, with the completions before it."""
    at, kind = channel.number, "start" if channel.is_inward else "end"
    yield f"      more_{at} = !off && ended_{at} < {kind}s_{at};\n      if (more_{at}) begin"
    for other, _ in bench.each():
        yield f"        need_{at}_{other} = ends_before_{other}[{kind}_{at}[ended_{at}]];"
    if channel.is_inward:
        yield from (f"        {name} = {source}[ended_{at}];" for name, source in zip(channel.contents("feed"), channel.contents("s")))
    yield f"      end\n      gate_{at} = 1;"


def offer_by_packets(bench, channel):
    """What a channel is offered once the packets before its next event have come, and an outward one's gate, which holds its starts."""
    at = channel.number
    valid, ready = bench.pin(channel.valid), bench.pin(channel.ready)
    if channel.is_inward:
        yield f"      {valid} = 0; gate_{at} = 1;"
        yield f"      if (!off && ended_{at} < starts_{at}) {valid} = flying_{at} || may(start_{at}[ended_{at}]);"
        for port, width, source in zip(channel.ports, channel.widths, channel.contents("s")):
            yield f"      {bench.pin(port)} = {width}'d0;\n      if ({valid}) {bench.pin(port)} = {source}[ended_{at}];"
    else:
        yield f"      gate_{at} = flying_{at}; {ready} = 0;"
        yield f"      if (!flying_{at} && started_{at} < starts_{at}) gate_{at} = may(start_{at}[started_{at}]);"
        yield f"      if (!off && gate_{at} && ended_{at} < ends_{at}) {ready} = may(end_{at}[ended_{at}]);"


def step_tables(bench):
    """The memories that hold a script's steps: of each its kind, a count, another channel, and contents."""
    for at, channel in bench.each():
        steps = bench.steps[channel.name]
        yield f"  integer place_{at}, waited_{at}, taken_{at};"
        yield from (f"  integer {name}_{at} [0:{len(steps)}];" for name in ("kind", "count", "other"))
        yield from (f"  reg {span(width)}{name} [0:{len(steps)}];" for name, width in zip(channel.contents("s"), channel.widths))
    yield "  function integer ended_of;\n    input integer channel;\n    case (channel)"
    yield from (f"      {at}: ended_of = ended_{at};" for at, _ in bench.each())
    yield "      default: ended_of = 0;\n    endcase\n  endfunction"


def step_loading(bench):
    """The task that takes the steps."""
    numbers = {channel.name: at for at, channel in bench.each()}
    yield "  task load;\n    begin"
    for at, channel in bench.each():
        for place, (kind, words) in enumerate(bench.steps[channel.name]):
            count, other = (words[1], numbers[words[0]]) if kind == "after" else (0 if kind in ("send", "all") else words[0], 0)
            yield f"      kind_{at}[{place}] = {KINDS[kind]}; count_{at}[{place}] = {count}; other_{at}[{place}] = {other};  // {kind}"
            if kind == "send":
                for name, width, value in zip(channel.contents("s"), channel.widths, words):
                    yield f"      {name}[{place}] = {width}'h{value:x};"
        yield f"      kind_{at}[{len(bench.steps[channel.name])}] = {END}; place_{at} = 0; waited_{at} = 0; taken_{at} = 0;"
    yield "    end\n  endtask"


def offer_by_script(bench, channel):
    """What a channel's step offers."""
    at, after, send = channel.number, KINDS["after"], KINDS["send"]
    yield f"      while (kind_{at}[place_{at}] == {after} && ended_of(other_{at}[place_{at}]) >= count_{at}[place_{at}]) begin"
    yield f"        place_{at} = place_{at} + 1; waited_{at} = 0; taken_{at} = 0;\n      end\n      gate_{at} = 1;"
    if channel.is_inward:
        valid = bench.pin(channel.valid)
        yield f"      {valid} = !off && kind_{at}[place_{at}] == {send};"
        for port, width, source in zip(channel.ports, channel.widths, channel.contents("s")):
            yield f"      {bench.pin(port)} = {width}'d0;\n      if ({valid}) {bench.pin(port)} = {source}[place_{at}];"
    else:
        yield f"      {bench.pin(channel.ready)} = !off && (kind_{at}[place_{at}] == {KINDS['take']} || kind_{at}[place_{at}] == {KINDS['all']});"


def step_moves(channel):
    """A channel's place in its steps behind a row."""
    at = channel.number
    yield f"      waited_{at} = waited_{at} + 1; taken_{at} = taken_{at} + (shown_{at} & r_{at});"
    yield (f"      if (kind_{at}[place_{at}] == {KINDS['send']} ? shown_{at} & r_{at} : kind_{at}[place_{at}] == {KINDS['take']} ? "
           f"taken_{at} == count_{at}[place_{at}] : kind_{at}[place_{at}] == {KINDS['wait']} && waited_{at} == count_{at}[place_{at}])")
    yield f"        begin place_{at} = place_{at} + 1; waited_{at} = 0; taken_{at} = 0; end"


def look(bench):
    """The task that reads a row, and says what is wrong with it."""
    yield "  function [127:0] known;  // the bits that are 1\n    input [127:0] bits;\n    integer at;"
    yield "    for (at = 0; at < 128; at = at + 1) known[at] = bits[at] === 1'b1;\n  endfunction"
    yield "  task look;\n    begin"
    for at, channel in bench.each():
        for side, port in (("v", channel.valid), ("r", channel.ready)):
            yield f"      {side}_{at} = {bench.pin(port)};"
            yield f"      if (!is_over && ^{side}_{at} === 1'bx) begin\n        is_over = 1;"
            yield f'        $display("# x at {port} in cycle %0d, time %0d: is its register reset? vidi-tools bench --zero sets it", cycle, $time);'
            yield "      end"
        for name, port in zip(channel.contents("d"), channel.ports):
            yield f"      {name} = {bench.pin(port)};\n      if (^{name} === 1'bx) begin"
            yield f"        if (v_{at} && !x_{at})"
            yield f'          $display("# x in {port} in cycle %0d, time %0d; it counts as 0, as do all later ones", cycle, $time);'
            yield f"        x_{at} = x_{at} | v_{at}; {name} = known({name});\n      end"
        yield f"      shown_{at} = v_{at} & gate_{at};"
    for at, channel in bench.each():
        if not channel.is_inward:
            changed = " || ".join([f"!v_{at}"] + [f"{name} != {old}" for name, old in zip(channel.contents("d"), channel.contents("last"))])
            yield f"      if (!is_over && held_{at} && ({changed})) begin is_over = 1; broken = {at}; end"
    yield "    end\n  endtask"


def differences(bench, channel):
    """The lines that say where an outward channel's content isn't the recorded one."""
    at, now, then = channel.number, channel.contents("d"), channel.contents("s")
    if not channel.is_inward and now:
        unequal = " || ".join(f"{name} != {source}[started_{at}]" for name, source in zip(now, then))
        forms, sources = " ".join(["%0d"] * len(now)), "".join(f", {name}" for name in now) + "".join(f", {source}[started_{at}]" for source in then)
        yield f"      if (shown_{at} && !flying_{at} && started_{at} < starts_{at} && ({unequal}))"
        yield (f'        $display("# differs {channel.name} start %0d in cycle %0d, time %0d: {forms}, in the trace {forms}", started_{at}, cycle, '
               f'$time{sources});')


def count(bench):
    """The task that counts a row: what started and ended, what has to stay, and whether all has come."""
    yield "  task count;\n    begin"
    for at, channel in bench.each():
        yield f"      if (shown_{at} && !flying_{at}) started_{at} = started_{at} + 1;\n      if (shown_{at} && r_{at}) ended_{at} = ended_{at} + 1;"
        yield f"      flying_{at} = shown_{at} & ~r_{at}; held_{at} = v_{at} & ~(shown_{at} & r_{at});"
        yield from (f"      {old} = {name};" for name, old in zip(channel.contents("d"), channel.contents("last")))
        if bench.steps:
            yield from step_moves(channel)
    yield "      cycle = cycle + 1;"
    if bench.trace:
        yield "      if (has_ended(0)) begin\n        if (idle == 0) came = cycle;"
        yield f"        if (idle == {bench.rest}) is_over = 1;\n        idle = idle + 1;\n      end"
    yield "    end\n  endtask"


def beginning(bench):
    """The statements before the first cycle: all from 0, then the reset."""
    yield f'    $dumpfile("{bench.name}.vcd");\n    $dumpvars(0, vidi_bench);\n    load;'
    yield "    clk = 0; off = 1; is_over = 0; cycle = 0; idle = 0; came = 0; broken = -1;"
    for at, channel in bench.each():
        yield f"    flying_{at} = 0; held_{at} = 0; shown_{at} = 0; x_{at} = 0; started_{at} = 0; ended_{at} = 0;"
        if bench.way == "clocks":
            yield "    " + " ".join(f"q_{at}.c{other} = 0;" for other, _ in bench.each())
    yield from (f"    dut.{name} = 0;" for name in bench.zeros)
    if bench.plan.reset:
        port, active, cycles = bench.plan.reset
        yield f"    {bench.pin(port)} = {active};\n    #1 offer;\n    repeat ({cycles}) begin #5 clk = 1; #5 clk = 0; end"
        yield f"    {bench.pin(port)} = {1 - active};"
    yield "    off = 0;"
    if bench.trace and not bench.rest:
        yield "    is_over = has_ended(0);"


def playing(bench):
    """The initial block, and the last lines."""
    yield "  initial begin"
    yield from beginning(bench)
    yield f"    while (!is_over && cycle < {bench.cycles}) begin\n      offer;\n      #5 look;\n      if (!is_over) begin"
    if bench.trace:
        for _, channel in bench.each():
            yield from ("  " + line for line in differences(bench, channel))
    yield "        clk = 1;\n        #5 clk = 0;\n        count;\n      end\n    end\n    store.close;"
    yield '    $display("packets %0d", store.packets);'
    for at, channel in bench.each():
        yield f'    if (broken == {at}) $display("vidi: unstable {channel.name} cycle %0d", cycle);'
    if bench.trace:
        yield '    if (has_ended(0)) $display("# all of the trace came, in %0d cycles", came);\n    else $display("# short after %0d cycles", cycle);'
    else:
        yield '    $display("# %0d cycles of the script", cycle);'
    yield "    $finish(0);\n  end"


def lines(bench):
    """The lines of the bench."""
    offers = offer_by_script if bench.steps else offer_by_clocks if bench.way == "clocks" else offer_by_packets
    yield "`timescale 1ns / 1ns\nmodule vidi_bench;"
    yield from pins(bench)
    yield from state(bench)
    if bench.way == "clocks":
        yield from replayers(bench)
    for part in (step_tables, step_loading) if bench.steps else (tables, loading, conditions):
        yield from part(bench)
    yield "  task offer;\n    begin"
    for channel in bench.channels:
        yield from offers(bench, channel)
    yield "    end\n  endtask"
    for part in (look, count, playing):
        yield from part(bench)
    yield "endmodule"
    if bench.way == "clocks":
        for channel in bench.channels:
            yield from replayer(bench, channel)
    yield from store_kit.recorder(bench.channels)
