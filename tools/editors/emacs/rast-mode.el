;;; rast-mode.el --- Colours and comments for files of rast  -*- lexical-binding: t; -*-

;;; Code:

(defconst rast-item-words '("type" "decl" "proc" "eq" "exec" "explicit"))
(defconst rast-step-words
  '("case" "close" "wait" "send" "recv" "impossible" "by" "refl" "if" "when" "now"))
(defconst rast-logic-words '("assert" "assume" "all" "ex" "true" "false"))
(defconst rast-cost-words '("work" "pay" "get" "delay"))

(defvar rast-mode-syntax-table
  (let ((table (make-syntax-table)))
    (modify-syntax-entry ?% "<" table)
    (modify-syntax-entry ?\n ">" table)
    (modify-syntax-entry ?_ "w" table)
    table)
  "Words and comments of rast.")

(defvar rast-font-lock
  `((,(regexp-opt rast-item-words 'words) . font-lock-keyword-face)
    (,(regexp-opt rast-step-words 'words) . font-lock-keyword-face)
    (,(regexp-opt rast-logic-words 'words) . font-lock-builtin-face)
    (,(regexp-opt rast-cost-words 'words) . font-lock-builtin-face)
    ("\\<\\(?:type\\|decl\\|exec\\)\\s-+\\([A-Za-z][A-Za-z0-9_]*\\)"
     1 font-lock-function-name-face)
    ("\\<proc\\s-+[A-Za-z][A-Za-z0-9_]*\\s-*<-\\s-*\\([A-Za-z][A-Za-z0-9_]*\\)"
     1 font-lock-function-name-face)
    ("\\<\\([A-Za-z][A-Za-z0-9_]*\\)\\s-*=>" 1 font-lock-constant-face)
    ("[{,]\\s-*\\([A-Za-z][A-Za-z0-9_]*\\)\\s-*:" 1 font-lock-constant-face)
    ("\\.\\s-*\\([A-Za-z][A-Za-z0-9_]*\\)" 1 font-lock-constant-face)
    ("[^[:ascii:]]" 0 font-lock-warning-face t))
  "What has which colour.")

;;;###autoload
(define-derived-mode rast-mode prog-mode "Rast"
  "A mode for files of rast."
  (setq-local comment-start "% ")
  (setq-local comment-start-skip "%+\\s-*")
  (setq-local indent-tabs-mode nil)
  (setq-local font-lock-defaults '(rast-font-lock)))

;;;###autoload
(add-to-list 'auto-mode-alist '("\\.rast\\'" . rast-mode))

(provide 'rast-mode)
;;; rast-mode.el ends here
