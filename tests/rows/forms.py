"""Documents and listings, from what differs between rows."""


def document(*rules):
    """A scan document of these rules."""
    return b'{"version":1,"rules":[' + b",".join(rules) + b"]}"


def sources(*all_of_them):
    """A scan document with a rule for each source: its object, the modules that it provides and
    those that it requires, as `a.o|A|B C`."""
    return document(*map(rule, all_of_them))


def rule(source):
    path, provided, required = source.split(b"|")
    return b'{"primary-output":"%s","provides":[%s],"requires":[%s]}' % (path, entries(provided),
                                                                         entries(required))


def entries(names):
    return b",".join(b'{"logical-name":"%s"}' % it for it in names.split())


def info(*modules, version=1, target=b"l"):
    return b'{"modules":[%s],"target":"%s","version":%d}' % (b",".join(modules), target, version)


def module(name, file, *requires, visibility=None):
    """The entry of a module in an info file; `required` has pairs of a file and a name."""
    needs = b",".join(b'{"bmi":"%s","name":"%s"}' % it for it in requires)
    more = b',"visibility":"%s"' % visibility if visibility else b""
    return b'{"bmi":"%s","name":"%s","requires":[%s]%s}' % (file, name, needs, more)


def target(more=b"", name=b"t"):
    """A target document with these members more. If a member is there twice,
    the last one counts."""
    return (b'{"version":1,"target":"%s","module-dir":"mod","module-ext":".bmi","dyndep":"%s.dd",'
            b'"info":"%s.json"%s}' % (name, name, name, more))


def statement(output, outputs=b"", inputs=b""):
    """A statement of a dyndep file, as the writer writes it."""
    made = b" | " + outputs if outputs else b""
    read = b" | " + inputs if inputs else b""
    return b"build %s%s: dyndep%s\n%s" % (output, made, read, b"  restat = 1\n" if outputs else b"")


def edge(line, dyndep=b"t.dd"):
    """An edge of a listing that names a dyndep file."""
    return b"build %s\n  dyndep = %s\n" % (line, dyndep)
