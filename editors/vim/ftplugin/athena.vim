setlocal commentstring=#\ %s
setlocal comments=:#
setlocal iskeyword=36,38,39,42,43,45,47-57,60-90,94,95,97-122,126
