#!/usr/bin/perl -0p
# Prints a header with comments for Doxygen: of the file, behind an enumerator, of a group (a blank line follows), and before a declaration.
s|\A/\* |/** \@file\n * |;
s|^( +\w+ = [-\w]+,? +)/\* |$1/**< |mg;
s|^/\* (The calls at \d+ bits)(:.*?\*/)\n|/** \@} */\n/** \@name $1\n * $1$2\n/** \@{ */\n|smg;
s|^/\* ((?:(?!\*/)[^.:])+)([.:](?:(?!\*/).)*\*/)\n\n|/** \@} */\n/** \@name $1\n * $1$2\n/** \@{ */\n|smg;
s|^( *)/\* |$1/** |mg;
