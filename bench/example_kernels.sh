# Read in by scripts that know $root: their arguments become the kernels of examples/, without the emitted texts.
set --
for kernel in "$root"/examples/*.c; do
    case $kernel in
    *.emit.c) ;;
    *) set -- "$@" "$kernel" ;;
    esac
done
