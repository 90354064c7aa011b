"""What CMake's step writes about modules that are exported or installed."""
import json
import os

from adapter_files import write_if_changed


def in_prefix(path, variable):
    return path if os.path.isabs(path) else f"${{{variable}}}/{path}"


def write_exports(target, objects, target_document):
    """Writes the files of CMake that say which source and which module file each public module
    has."""
    public = sorted(((name, it) for it in objects if not it.is_private for name, _ in it.provides),
                    key=lambda it: it[0])
    compiled = {
        name:
        f"{target_document['module-dir']}/{name.replace(':', '-')}{target_document['module-ext']}"
        for name, _ in public}
    for export in target["exports"]:
        if export["cxx-module-info-dir"]:
            write_export(target, export, public, compiled)
    if target["bmi-installation"]:
        text = "".join(installation_of(name, target["bmi-installation"])
                       for name in compiled.values())
        write_if_changed(target["bmi-installation"]["script-location"], text)


def installation_of(name, given):
    """Returns the commands of CMake's language that install a module file."""
    options = [("DESTINATION", f' "{in_prefix(given["destination"], "CMAKE_INSTALL_PREFIX")}"'),
               ("TYPE", " FILE"),
               ("PERMISSIONS", given["permissions"]), (given["message-level"], " "),
               ("FILES", f' "{name}"')]
    lines = "".join(f"\n    {option}{value}".rstrip() for option, value in options
                    if option and value)
    return ('if (CMAKE_INSTALL_COMPONENT STREQUAL "" OR NOT CMAKE_INSTALL_COMPONENT)\n'
            f'  file(INSTALL{lines})\nendif ()\n')


def write_export(target, export, public, compiled):
    """Writes, for an export of the target, which source and which module file each module has: for
    CMake, and as a list."""
    config, installation = target["config"], target["bmi-installation"]
    folder = export["cxx-module-info-dir"]
    properties, modules = "", []
    for name, it in public:
        source = listed = it.entry["source"]
        file = f",{compiled[name]}"
        if export["install"] and it.entry["destination"]:
            source = "/".join(filter(None, [it.entry["destination"], it.entry["relative-directory"],
                                            os.path.basename(source)]))
            listed = os.path.relpath(source, f"{export['destination']}/{folder}")
            source = in_prefix(source, "_IMPORT_PREFIX")
        if export["install"]:
            destination = installation and in_prefix(installation["destination"], "_IMPORT_PREFIX")
            file = f",{destination}/{os.path.basename(compiled[name])}" if installation else ""
        properties += f'    "{name}={source}{file}"\n'
        modules.append({"is-interface": dict(it.provides)[name], "is-std-library": False,
                        "logical-name": name, "source-path": listed})
    stem = export.get("filesystem-export-name", export["export-name"])
    stem = f"{export['export-prefix']}/{folder}/target-{stem}-{config or 'noconfig'}"
    write_if_changed(
        f"{stem}.cmake", f'set_property(TARGET "{export["namespace"]}{export["export-name"]}"\n'
        f"  PROPERTY IMPORTED_CXX_MODULES_{config.upper() or 'NOCONFIG'}\n{properties})\n")
    write_if_changed(f"{stem}.modules.json",
                     json.dumps({"modules": modules, "revision": 1, "version": 1}, indent=2))
