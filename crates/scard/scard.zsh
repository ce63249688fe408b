#compdef scard
# Completion of the words of scard for zsh. The words come from the completion for bash, which bash runs. Where no word
# fits, a file's name may.
local file=${${funcsourcetrace[1]%:*}:A:h}/../../bash-completion/completions/scard
local -a found
if (( $+commands[bash] )); then
    found=(${(f)"$(bash $file "${(@)words[1,CURRENT]}")"})
fi
if (( $#found )); then
    compadd -a found
else
    _files
fi
