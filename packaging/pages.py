"""Manual pages and completions, made of what a program's --help prints and of pages/NAME: examples, files, what to see."""
import re


class Help:
    """What --help prints, taken apart."""

    def __init__(self, name, text):
        self.name = name
        head, _, rest = text.partition("\nUsage: ")
        self.about = " ".join(head.split())
        usage, _, rest = rest.partition("\n\n")
        # the text names the program by the name that it was called by
        self.usage = re.sub(r"^\S+", name, usage.strip())
        self.options, self.paragraphs = [], []
        for block in re.split(r"\n\n+", rest.strip()):
            title = re.match(r"(Options|Arguments):\n", block)
            if title:
                # a text that goes on in the next line is indented there up to where it began
                self.options += [self.option(line) for line in re.sub(r"\n {9,}", " ", block).splitlines()[1:]]
            else:
                self.paragraphs.append(block)
        if not self.about or not self.options or not any(it.startswith("Status 0:") for it in self.paragraphs):
            raise ValueError(f"{name}: --help has another form than the one that is read here")

    @staticmethod
    def option(line):
        """The words of an option or argument, its value's name, and its text."""
        found = re.match(r" +((?:-\w, )?(?:--[\w-]+)?)(?: ?([<\[][^>\]]+[>\]](?:\.\.\.)?))?  +(.*)$", line)
        if not found:
            raise ValueError(f"no option: {line}")
        words, value, text = found.groups()
        return [it.strip() for it in words.split(",") if it.strip()], value, text

    def statuses(self):
        text = " ".join(next(it for it in self.paragraphs if it.startswith("Status 0:")).removeprefix("Status ").split())
        return re.findall(r"(\d+): (.*?)(?= \d+: |$)", text)


def escaped(text):
    text = text.replace("\\", "\\e").replace("-", "\\-").replace("'", "\\(aq").replace("`", "\\(ga").replace("^", "\\(ha").replace("~", "\\(ti")
    return re.sub(r"(?m)^\.", r"\\&.", text)


def lines(block):
    """A paragraph in roff: lines that are indented stay as they are."""
    found, plain = [], True
    for line in block.splitlines():
        if line.startswith("  ") == plain:
            found.append(".PP\n.nf\n.RS 4" if plain else ".RE\n.fi\n.PP")
            plain = not plain
        found.append(escaped(line if plain else line[2:]))
    return "\n".join([".PP", *found] + ([] if plain else [".RE\n.fi"]))


def sections(text):
    """The sections of pages/NAME: a line '# TITLE', then paragraphs."""
    found = re.split(r"(?m)^# (.*)\n", text)
    return list(zip(found[1::2], found[2::2]))


def manual(told, more, version, date):
    """The manual page of a program."""
    page = [f'.TH {told.name.upper()} 1 "{date}" "sip_replay {version}" "User Commands"', ".SH NAME", f"{told.name} \\- {escaped(told.about[0].lower() + told.about[1:])}", ".SH SYNOPSIS", f".B {told.name}"]
    page += [escaped(told.usage.removeprefix(told.name).strip()), ".SH DESCRIPTION", escaped(told.about + ".")]
    example = [it for it in told.paragraphs if it.startswith("Example:")]
    page += [lines(it) for it in told.paragraphs if it not in example and not it.startswith("Status 0:")]
    page.append(".SH OPTIONS")
    for words, value, text in told.options:
        names = ", ".join(f"\\fB{escaped(it)}\\fR" for it in words)
        page += [".TP", f"{names} {escaped(value)}".strip() if value else names, escaped(text + ".")]
    page.append(".SH EXIT STATUS")
    for status, text in told.statuses():
        page += [".TP", f".B {status}", escaped(text[0].upper() + text[1:])]
    page.append(".SH EXAMPLES")
    page += [lines(it.removeprefix("Example:\n")) for it in example]
    extra = dict(sections(more))
    page += [lines(it) for it in re.split(r"\n\n+", extra.pop("EXAMPLES", "").strip()) if it]
    for title, text in extra.items():
        page.append(f".SH {title}")
        for block in re.split(r"\n\n+", text.strip()):
            term = re.match(r"(\S+): (.*)", block, re.S)
            page += [".TP", f".I {escaped(term[1])}", escaped(" ".join(term[2].split()))] if term else [lines(block)]
    return "\n".join(page) + "\n"


def folders_and_files(told):
    """The options that take a folder, those that take a file, and those that take another value."""
    kinds = {"folder": [], "file": [], "other": []}
    for words, value, _ in told.options:
        if value and words:
            kinds["folder" if "DIR" in value else "file" if value.rstrip(".") == "<F>" else "other"].append(words[-1])
    return kinds


def choices(told, name):
    """The names that an option's text lists, as 'arrows, input-output or received-sent'."""
    text = next((text for words, _, text in told.options if name in words), "")
    found = re.search(r"((?:[\w-]+, )+[\w-]+ or [\w-]+);", text)
    return re.split(r", | or ", found[1]) if found else []


def bash(told):
    kinds, function = folders_and_files(told), f"_{told.name}"
    every = " ".join(it for words, _, _ in told.options for it in words)
    cases = []
    if kinds["folder"]:
        cases.append(f"    {'|'.join(kinds['folder'])}) mapfile -t COMPREPLY < <(compgen -d -- \"$word\"); return ;;")
    if kinds["file"]:
        cases.append(f"    {'|'.join(kinds['file'])}) mapfile -t COMPREPLY < <(compgen -f -- \"$word\"); return ;;")
    for name in kinds["other"]:
        cases.append(f"    {name}) mapfile -t COMPREPLY < <(compgen -W '{' '.join(choices(told, name))}' -- \"$word\"); return ;;")
    middle = "\n".join(cases)
    return f"""# Completion of {told.name} for bash, made of its --help.
{function}() {{
    local word=${{COMP_WORDS[COMP_CWORD]}}
    case ${{COMP_WORDS[COMP_CWORD - 1]}} in
{middle}
    esac
    if [[ $word == -* ]]; then
        mapfile -t COMPREPLY < <(compgen -W '{every}' -- "$word")
    else
        mapfile -t COMPREPLY < <(compgen -f -- "$word")
    fi
}}
complete -o filenames -F {function} {told.name}
"""


def zsh(told):
    def quoted(text):
        return text.replace("'", "'\\''").replace("[", "\\[").replace("]", "\\]").replace(":", "\\:")

    kinds, found, place = folders_and_files(told), [], 0
    for words, value, text in told.options:
        if not words:
            # an argument of which there may be several is the rest of the line
            place += 1
            at = "*" if value.endswith("...") else place
            found.append(f"    '{at}:{quoted(text)}:_files{' -/' if 'folder' in text else ''}'")
            continue
        action = ":folder:_files -/" if words[-1] in kinds["folder"] else ":file:_files" if words[-1] in kinds["file"] else ""
        if value and not action:
            action = f":value:({' '.join(choices(told, words[-1]))})" if choices(told, words[-1]) else ":value:"
        found += [f"    '{it}[{quoted(text)}]{action}'" for it in words]
    return f"#compdef {told.name}\n# Completion of {told.name} for zsh, made of its --help.\n_arguments -s \\\n" + " \\\n".join(found) + "\n"
