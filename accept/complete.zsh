# Prints what zsh completes lines to, each in its turn: zsh -f complete.zsh FOLDER LINE.., with the completions in that folder.
zmodload zsh/zpty || exit
folder=$1
shift
# A shell with a terminal of its own, in which the tab key completes the line, prints it, and clears it.
zpty shell zsh -f -i
zpty -w shell "fpath=(${(q)folder} \$fpath); autoload -U compinit; compinit -u -D; PS1="
zpty -w shell "tell() { zle complete-word; print -r -- \"<<\$BUFFER>>\"; BUFFER=; }; zle -N tell; bindkey '^I' tell; print REA''DY"
zpty -r shell told '*READY*' || exit
for line; do
    zpty -w -n shell "$line"$'\t'
    zpty -r shell told '*<<*>>*' || exit
    print -r -- ${${told##*<<}%%>>*}
done
zpty -d shell
