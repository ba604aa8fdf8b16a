" SPDX-License-Identifier: Apache-2.0
autocmd BufRead,BufNewFile *.geo setlocal filetype=geo commentstring=%\ %s
