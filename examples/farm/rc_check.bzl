"""Checks a product's rc files as a Bazel action, which reads what it names and nothing else.

Copy this file and check-product into a package, and the two executables that the launcher names (tools/launch --build)
or a rule that fetches them. Then, in a BUILD file:

    load(":rc_check.bzl", "rc_check")

    rc_check(
        name = "pecan_rc",
        files = glob(["pecan/root/**", "pecan/baseline"]),
        product = "pecan",
        script = "pecan/script",
        check = ":check-product",
        initsim = ":initsim",
        rc_lint = ":rc_lint",
    )

`bazel build :pecan_rc` gives pecan_rc.lint and pecan_rc.trace, and fails with the messages where the tree has errors. The action
has all its inputs in its key, no network, and of the environment only what the rule sets, and its output is the same on each
machine, so it is cached and run remotely like a compilation.
"""

def _rc_check_impl(ctx):
    lint = ctx.actions.declare_file(ctx.label.name + ".lint")
    trace = ctx.actions.declare_file(ctx.label.name + ".trace")
    product = "/".join([it for it in [ctx.label.workspace_root, ctx.label.package, ctx.attr.product] if it])
    ctx.actions.run(
        executable = ctx.executable.check,
        arguments = [product, lint.path[:-len(".lint")]],
        inputs = ctx.files.files + [ctx.file.script],
        tools = [ctx.executable.initsim, ctx.executable.rc_lint],
        outputs = [lint, trace],
        env = {
            "INITSIM": ctx.executable.initsim.path,
            "LC_ALL": "C",
            "PATH": "/usr/bin:/bin",
            "RC_LINT": ctx.executable.rc_lint.path,
        },
        execution_requirements = {"block-network": "1"},
        mnemonic = "RcCheck",
        progress_message = "Checking the rc files of %s" % ctx.attr.product,
    )
    return [DefaultInfo(files = depset([lint, trace]))]

_TOOL = {"executable": True, "cfg": "exec", "allow_single_file": True, "mandatory": True}

rc_check = rule(
    implementation = _rc_check_impl,
    attrs = {
        "files": attr.label_list(allow_files = True, mandatory = True, doc = "the files below PRODUCT/root, and PRODUCT/baseline where there is one"),
        "product": attr.string(mandatory = True, doc = "the folder of root and script, below the package"),
        "script": attr.label(allow_single_file = True, mandatory = True, doc = "PRODUCT/script"),
        "check": attr.label(**_TOOL),
        "initsim": attr.label(**_TOOL),
        "rc_lint": attr.label(**_TOOL),
    },
)
