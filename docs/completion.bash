# bash's completion of the words of the package's commands. Drawn by tools/commands.
# shellcheck shell=bash

# What is given: all options, those that a folder comes after, and those that another word comes after.
_yazgoulm() {
    local word=${COMP_WORDS[COMP_CWORD]} before=${COMP_WORDS[COMP_CWORD - 1]} how=(-f)
    if [ "$word" = = ]; then word=''; elif [ "$before" = = ]; then before=${COMP_WORDS[COMP_CWORD - 2]}; fi
    COMPREPLY=()
    case $word in -*) how=(-W "$1") ;; esac
    case " $2 " in *" $before "*) how=(-d) ;; esac
    case " $3 " in *" $before "*) return ;; esac
    mapfile -t COMPREPLY < <(compgen "${how[@]}" -- "$word")
}

_yazgoulm_folder() {
    _yazgoulm '-h --help --json --columns -0 --print0 --links --page --screen --exec --batch --once
        --count --tree --relative --clear -i --ignore-case --new --skip --poll --port
        -q --quiet --version' \
        '--links' '--columns --exec --batch --skip --poll --port'
}
complete -o filenames -F _yazgoulm_folder yazgoulm-folder

_yazgoulm_mail() {
    _yazgoulm '-h --help --maildir --json -q --quiet --version' \
        '--maildir' ''
}
complete -o filenames -F _yazgoulm_mail yazgoulm-mail

_yazgoulm_queries() {
    _yazgoulm '-h --help --install -q --quiet --version' \
        '' ''
}
complete -o filenames -F _yazgoulm_queries yazgoulm-queries

_yazgoulm_explain() {
    _yazgoulm '-h --help --json -q --quiet --version' \
        '' ''
}
complete -o filenames -F _yazgoulm_explain yazgoulm-explain
