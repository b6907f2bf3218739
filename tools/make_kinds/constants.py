"""Writes a design whose expressions take much work for their length, to standard output, for the measures of docs/SPEED.md.
Its top is t.

    make constants KIND BYTES

The kinds differ in the expressions, of which there are so many that the text has about BYTES bytes:

    counts     15 replications within one another's counts, each in the narrower left operand of a wider one
    bounds     the same as a bound of a part-select
    balanced   6 levels of two operands of about one length, of which the left one is narrower
    rising     200 operands, each of its first 128 wider than all before it
    choices    250 `?:` of plain constants, each in the last branch of the one before
    sums       500 operands between `+`
    truths     500 operands between `&&`
    equals     500 operands between `==`
    brackets   30 concatenations within one another round 470 operands
    memories   memories of one word, each of which is read once
    labels     one `case` of 500 operands with labels, which are told apart by copies of its code
    name       one name of BYTES / 2 bytes, declared and read once
    chain      4,095 modules, each of which holds the next one and hands on its parameter and one more, whatever BYTES is
    copies     4,095 instances of one module with an expression of 999 tokens, whatever BYTES is
    wholes     4,095 instances of one module with BYTES bytes of such expressions
"""
import sys

INSTANCES = 4095
CONSTANT, WIRE = 'localparam PPLACE = EXPRESSION;\n', 'wire wPLACE = EXPRESSION;\n'
SIGNS = {'sums': '+', 'truths': '&&', 'equals': '=='}


def counts():
    e = "1'b1"
    for _ in range(15):
        e = "{(%s + 1'b0) + 2'd0{1'b1}}" % e
    return e


def balanced():
    e = "{1'b1}"
    for _ in range(6):
        e = "{%s + {%s, 1'b0}}" % (e, e)
    return e


def repeated(size, head, line, expression):
    one = line.replace('EXPRESSION', expression)
    return head + ''.join(one.replace('PLACE', str(k)) for k in range(max(1, size // len(one)))) + 'endmodule\n'


def chain():
    last = 'module m%d #(parameter P = 0)(); endmodule\n' % (INSTANCES - 1)
    held = ('module m%d #(parameter P = 0)(); m%d #(.P(P + 1)) u(); endmodule\n' % (k, k + 1) for k in range(INSTANCES - 1))
    return 'module t(); m0 #(.P(0)) u(); endmodule\n' + ''.join(held) + last


def copies(size):
    child = repeated(size, 'module c();\n', CONSTANT, ' + '.join(["8'd1"] * 500))
    return child + 'module t();\n' + ''.join('c u%d();\n' % k for k in range(INSTANCES)) + 'endmodule\n'


def memories(size):
    count = size // 21
    declared = ', '.join('m%d[0:0]' % k for k in range(count))
    read = ''.join('y = m%d[0];\n' % k for k in range(count))
    return 'module t(); reg y, %s;\nalways @* begin y = 0;\n%send endmodule\n' % (declared, read)


def labels(size):
    subject = ' + '.join('a' * 500)
    return 'module t(input a); reg y;\nalways @* case (%s)\n%s: y = 1; default: y = 0; endcase\nendmodule\n' % (
        subject, ', '.join('0' * (size // 3)))


def text(kind, size):
    if kind == 'counts':
        return repeated(size, 'module t();\n', CONSTANT, counts())
    if kind == 'bounds':
        return repeated(size, 'module t(input [1:0] q);\n', WIRE, 'q[%s:0]' % counts())
    if kind == 'balanced':
        return repeated(size, 'module t();\n', CONSTANT, balanced())
    if kind == 'rising':
        return repeated(size, 'module t();\n', CONSTANT, ' + '.join("{%d'd1}" % min(128, i + 1) for i in range(200)))
    if kind == 'choices':
        return repeated(size, 'module t();\n', CONSTANT, '1 ? 2 : ' + '0 ? 2 : ' * 249 + '3')
    if kind in SIGNS:
        return repeated(size, 'module t(input a);\n', WIRE, (' %s ' % SIGNS[kind]).join('a' * 500))
    if kind == 'brackets':
        return repeated(size, 'module t(input a);\n', WIRE, '{' * 30 + ' + '.join('a' * 470) + '}' * 30)
    if kind == 'name':
        name = 'n' * (size // 2)
        return 'module t(); localparam %s = 1, P = %s; endmodule\n' % (name, name)
    return {'memories': memories, 'labels': labels, 'wholes': copies}[kind](size)


def written(kind, size):
    if kind == 'chain':
        return chain()
    return copies(1) if kind == 'copies' else text(kind, size)


def main():
    sys.stdout.write(written(sys.argv[1], int(sys.argv[2])))
