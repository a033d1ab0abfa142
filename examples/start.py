"""What start.c does, in Python. With the installed library: PYTHONPATH=$(pkg-config --variable=pythondir leg_sheet) python3 start.py"""

from leg_sheet import Refused, place, print_sheet, read_typed

tree = read_typed("column\n  leg 1\n  row\n    Home pad\n    take off\n")
print(print_sheet(tree))

node, line, column = place(tree, 3, 14)
print(f"node {node}: line {line}, column {column} of its block")

try:
    read_typed("row\n   Home pad\n")
except Refused as refused:
    print(refused)
