;;; distalgo.el --- DistAlgo programs, by dalgo  -*- lexical-binding: t; -*-

;;; Commentary:
;; Load this file, and set `distalgo-program' where dalgo is none of the programs that the system finds.
;; `M-x eglot' in a program starts the language server. It needs Emacs 29, or eglot from ELPA.
;; `M-x distalgo-walk', `distalgo-stuck' and `distalgo-show' run the program of the buffer.

;;; Code:

(require 'generic)

(defvar distalgo-program "dalgo"
  "The file dalgo.")

(define-generic-mode distalgo-mode
  '("#")
  '("add" "and" "at" "await" "bool" "channel" "class" "count" "def" "del" "each" "elif" "else" "extends" "false" "fifo" "for"
    "from" "has" "if" "in" "int" "logical_time" "main" "max" "message" "min" "new" "not" "or" "output" "pass" "proc" "process"
    "range" "receive" "received" "reliable" "run" "self" "send" "sent" "set" "setup" "some" "str" "sum" "timeout" "to" "true"
    "unordered" "unreliable" "var" "while")
  '(("'[^'\n]*'" . 'font-lock-string-face)
    ("^ *-- *\\([A-Za-z_][A-Za-z0-9_]*\\)" 1 'font-lock-constant-face))
  '("\\.da\\'")
  (list (lambda () (setq-local indent-tabs-mode nil tab-width 4)))
  "A mode for DistAlgo programs.")

(with-eval-after-load 'eglot
  (add-to-list 'eglot-server-programs (cons 'distalgo-mode (list distalgo-program "lsp"))))

(defun distalgo-run (script)
  "Run SCRIPT of the shell, with the file dalgo as $1 and the file of the buffer as $2."
  (compile (mapconcat #'shell-quote-argument (list "sh" "-c" script "sh" distalgo-program (buffer-file-name)) " ")))

(defun distalgo-walk ()
  "Generate a schedule of the program of the buffer."
  (interactive)
  (distalgo-run "\"$1\" walk \"$2\" 1 200"))

(defun distalgo-stuck ()
  "Hunt a schedule after which a process of the program of the buffer is stuck."
  (interactive)
  (distalgo-run "\"$1\" hunt \"$2\" 1 1000 200 stuck"))

(defun distalgo-show ()
  "Show what the processes of the program of the buffer keep after a generated schedule."
  (interactive)
  (distalgo-run
   (concat "set -- \"$1\" \"$2\" $(\"$1\" check \"$2\"); [ \"$3\" = ok ] || exit 1; "
           "{ \"$1\" walk \"$2\" 1 200; seq -f 'show %.0f' \"$5\"; } | \"$1\" replay \"$2\" /dev/stdin")))

(provide 'distalgo)
;;; distalgo.el ends here
