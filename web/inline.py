"""The page as one file: `inline.py MODULE` prints page.html with the style, the program of page/ and the WebAssembly module inside.

Each file of page/ becomes a function that is called once, so that its names are its own; what it exports is what the function answers.
"""
import base64
import pathlib
import re
import sys

HERE = pathlib.Path(__file__).resolve().parent
IMPORT = re.compile(r'^import \{ ([\w, ]+) \} from "\./(\w+)\.mjs";\n', re.M)
EXPORT = re.compile(r"^export (?=(?:const|function|class) (\w+))", re.M)
MODULE = re.compile(r'^const MODULE = "([\w+/=]*)";$', re.M)


def text_of(name):
    return (HERE / name).read_text(encoding="utf-8")


def in_order(name, found):
    """The names of the files below a file of page/, and its own, each behind those that it imports."""
    for _, below in IMPORT.findall(text_of(f"page/{name}.mjs")):
        in_order(below, found)
    if name not in found:
        found.append(name)
    return found


def function_of(name):
    """A file of page/ as a function that is called once."""
    text = text_of(f"page/{name}.mjs")
    exported = ", ".join(EXPORT.findall(text))
    body = EXPORT.sub("", IMPORT.sub(r"const { \1 } = \2_mjs;\n", text))
    return f"const {name}_mjs = (() => {{\n{body}return {{ {exported} }};\n}})();\n"


def page_of(module):
    """The page with this module."""
    program = f'const MODULE = "{base64.b64encode(module).decode()}";\n' + "".join(map(function_of, in_order("main", [])))
    page = text_of("page.html").replace("/* the style */\n", text_of("page.css"))
    return page.replace("/* the program */\n", program)


def module_of(page):
    """The bytes of the module in a page."""
    return base64.b64decode(MODULE.search(page)[1])


if __name__ == "__main__":
    sys.stdout.write(page_of(pathlib.Path(sys.argv[1]).read_bytes()))
