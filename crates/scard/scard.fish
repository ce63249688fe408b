# Completion of the words of scard for fish. The words come from the completion for bash, which bash runs.
set -g __scard_bash (status dirname)/../../bash-completion/completions/scard

function __scard_words
    set -l words (commandline -opc)
    set -l last (commandline -ct)
    bash $__scard_bash $words "$last"
end
complete -c scard -n 'type -q bash' -a '(__scard_words)'
