# complete.zsh FOLDER LINE WANTED: what zsh makes of the line and a tab, with the completions of the folder. It waits for what is
# wanted, and at most a minute.
zmodload zsh/zpty
text=
wait_for() {
    repeat 600; do
        while zpty -r -t shell more; do text+=$more; done
        [[ $text == *$1* ]] && return
        sleep 0.1
    done
}
zpty shell zsh -f -i
zpty -w shell "fpath=($1 \$fpath); autoload -U compinit; compinit -u -D; zstyle ':completion:*' menu no; print re''ady"
wait_for ready
text=
zpty -w -n shell "$2"$'\t'
wait_for "$3"
print -r -- "$text"
zpty -d shell
