" Files whose name ends in .da are DistAlgo programs.
autocmd BufRead,BufNewFile *.da setfiletype distalgo
