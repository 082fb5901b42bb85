# Completion of yt_live for bash, made by share/write: it takes no words.
complete -W '' yt_live
