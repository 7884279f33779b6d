from textmodel import Document

with Document("fn f(x) { // (\n    g[x\n}\n", language="rust") as document:
    document[22:22] = "]"  # offsets count UTF-16 units from 0
    (underline,) = document.decorate(owner=1, add=[(19, 22)])
    document.edit_at((1, 1), (1, 3), "func")  # lines and columns count from 1
    print(document.changes())  # [Change(start=0, end=2, text='func')]
    print(document.decoration(underline).span)  # Span(start=21, end=24)
    print(document.match(1, 11))  # Partner(line=3, column=1, length=1)
    document.undo()
    print(list(document.lines()))  # ['fn f(x) { // (', '    g[x', '}', '']
