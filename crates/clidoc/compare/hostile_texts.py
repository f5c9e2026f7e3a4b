"""Texts that mean a command to a terminal, to roff, to a browser or to a reader of TOML, each between two words that can be looked for."""

# Control functions of a terminal: what begins with an escape, the single ones, and those above ASCII.
TERMINAL = [
    "\x1b[31m", "\x1b[2J", "\x1b[1;1H", "\x1b[?1049h", "\x1b]0;title\x07", "\x1b]8;;http://x\x1b\\", "\x1b]52;c;aGk=\x07", "\x1bc", "\x1b(0",
    "\x1bP$q\"p\x1b\\", "\x1b[6n", "\x1b[5i", "\x1b#8", "\x1bZ", "\x9b31m", "\x9d0;title\x9c", "\x90q\x9c", "\x08\x08\x08", "\x07", "\x0c", "\x0b", "\x0e",
    "\x7f", "\x00", "\x85", "\r\x1b[K", "a\rb", "\x1a", "\x18", "\x84",
]

# Requests and escapes of roff, at the start of a line and within one. CANARY is a file that lies where the page is read.
ROFF = [
    "\n.so CANARY\n", "\n'so CANARY\n", "\n.mso CANARY\n", "\n.pso cat CANARY\n", "\n.sy echo leaked\n", "\n.open f leaked\n", "\n.write f x\n", "\n.nx CANARY\n",
    "\n.ex\n", "\n.ab leaked\n", "\n.de TH\n", "\n.rm SH\n", "\n.ig\n", "\n.di x\n", "\n.tm leaked\n", "\n.lf 1 leaked\n", "\n.TH a 1\n", "\n.SH LEAKED\n", "\n.ft CW\n", "\n.if 1 .so CANARY\n",
    ".so CANARY", "'br", "..", ".", "'", "\n.\n", "\n'\n", "\n. so CANARY\n", "\n.\\\" comment\n", "\n.ds Aq leaked\n", "\n.cc !\n!so CANARY\n", "\n.ec @\n", "\n.eo\n", "\n.nop leaked\n",
    "\\V[CANARY]", "\\V(HO", "\\*[Aq]", "\\*(Aq", "\\n[.g]", "\\fB", "\\fIi\\fP", "\\s+9", "\\X'ps: exec leaked'", "\\Y[x]", "\\!.so CANARY", "\\?x\\?", "\\Z'x'", "\\h'9'", "\\v'9'", "\\o'ab'",
    "\\c", "\\{", "\\}", "\\\"", "\\#", "\\e", "\\\\", "\\", "\\&", "\\%", "\\N'65'", "\\[u0041]", "\\(aq", "\\$1", "\\A'x'", "\\B'1'", "\\w'x'", "\\R'x 1'", "\\k'x'", "\\p", "\\O0", "\\D'l 1 1'", "\\m[red]",
    "\"", "\"\"", "a \"b c\" d", "\\\n", "-", "--", "\\-", "^", "~", "`", "``", "´", "@", "$", "|",
]

# Elements, attributes, references, comments and sections of HTML.
HTML = [
    "<script>alert(1)</script>", "</p>", "</dl></div></body>", "<b>", "</b>", "<!-- ", " -->", "<![CDATA[", "]]>", "<?x ?>", "<!DOCTYPE x>", "<style>*{display:none}</style>",
    "<img src=x onerror=alert(1)>", "<a href=\"javascript:x\">", "\" onclick=\"x", "' onclick='x", "&lt;script&gt;", "&#60;b&#62;", "&", "&amp", "<", ">", "<<", "</", "<textarea>", "<plaintext>",
    "<svg/onload=x>", "<math>", "<b\n>", "<\u0130mg>", "\uff1cb\uff1e",
]

# Marks of markdown, fences, the text of TOML itself, and what turns the direction of writing around.
OTHER = [
    "\n```\n", "\n```html\n<b>\n```\n", "```", "\n    code\n", "\n\n", "\n\n\n\n", " \n \n ", "# h", "\n# h\n", "[x](javascript:y)", "![x](y)", "**b**", "_i_", "`c`", "\n- a\n", "\n1. a\n", "\n> q\n", "\n---\n", "|a|b|",
    "'''", "\"\"\"", "\n[[option]]\n", "\nname = \"x\"\n", "%s%n", "$(id)", "`id`", "; id", "\t", "\t\t\t", "\u202e", "\u200b", "\u00a0", "\u2028", "\ufeff", "\ufffd", "a" * 300, "a " * 300, "\u0301" * 40, "\U0001f468\u200d\U0001f469",
]

TEXTS = [f"before{text}afterwards" for text in TERMINAL + ROFF + HTML + OTHER]
