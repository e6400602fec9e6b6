# typed.zsh FOLDER TEXT FILE: prints the line of a zsh that has the completions of FOLDER, where TEXT is typed and the tab key pressed
# after it. FILE and FILE.rc are made on the way.
zmodload zsh/zpty
print -r -- "PS1=
fpath=($1 \$fpath)
autoload -Uz compinit
compinit -u -D
setopt no_beep
unsetopt auto_menu
show() { print -r -- \"\$BUFFER\" > $3 }
zle -N show
bindkey '^I' complete-word '^O' show
echo REA''DY" > $3.rc
zpty it zsh -f -i
zpty -w it "source $3.rc"
while zpty -r it line; do [[ $line == *READY* ]] && break; done
zpty -w -n it "$2"$'\t\x0f'
for k in {1..100}; do [[ -s $3 ]] && break; sleep 0.1; done
cat $3
zpty -d it
