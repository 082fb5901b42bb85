# Completion of yt_live for fish, made by share/write: it takes no words.
complete -c yt_live -f
