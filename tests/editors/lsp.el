;;; lsp.el --- the session of tests/editors/lsp in Emacs  -*- lexical-binding: t -*-

(package-initialize)
(require 'eglot)
(load (expand-file-name "emacs/bibtex-lsp.el" (getenv "EDITORS")) nil t)
(setq bibtex-lsp-program (getenv "PROGRAM")
      eglot-connect-timeout 60
      eglot-sync-connect 60)

(defun check (step holds &optional found)
  "Print whether STEP passed, that is HOLDS; otherwise also FOUND, and end."
  (princ (format "%s: %s%s\n" (if holds "passed" "FAILED") step (if holds "" (format ": %S" found))))
  (unless holds (kill-emacs 1)))

(defun ask (method params)
  "Ask the server METHOD with PARAMS, after it has got all changes."
  (eglot--signal-textDocument/didChange)
  (jsonrpc-request (eglot-current-server) method params :timeout 60))

(defun hover ()
  (plist-get (plist-get (ask :textDocument/hover (eglot--TextDocumentPositionParams)) :contents) :value))

(defun messages-at (line)
  "Wait for the diagnostics, and return those at LINE, or all if that is nil."
  (ask :bibtex/log nil)
  (accept-process-output nil 1)
  (seq-filter (lambda (d) (or (not line) (= line (line-number-at-pos (flymake-diagnostic-beg d))))) (flymake-diagnostics)))

(find-file "library.bib")
(apply #'eglot (eglot--guess-contact))
(check "the server starts" (eglot-current-server))
(search-forward "Theory")
(check "hover" (string-match-p "Theory of Games" (hover)) (hover))
(insert "Z")
(check "hover after a change" (string-match-p "TheoryZ of Games" (hover)) (hover))
(delete-char -1)
(end-of-line)
(delete-char -1)
(let ((line (1+ (line-number-at-pos))))
  (check "a message at its line" (= 1 (length (messages-at line))) (messages-at nil)))
(insert ",")
;; Only the hint at the entry that nothing cites is left.
(let ((left (messages-at nil)))
  (check "no message after the change is undone" (and (= 1 (length left)) (= 110 (line-number-at-pos (flymake-diagnostic-beg (car left))))) left))
(check "symbols" (seq-some (lambda (s) (equal (plist-get s :name) "neumann:games"))
                           (ask :textDocument/documentSymbol `(:textDocument ,(eglot--TextDocumentIdentifier)))))
;; In a style.
(find-file "labels.bst")
(check "the server has the style" (eglot-managed-p))
(flymake-start) ; a buffer that was never displayed has no checks yet
(search-forward "FUNCTION {or.else}")
(search-forward "empty$")
(check "a built-in function" (string-match-p "Cost: " (hover)) (hover))
(search-backward "{text}")
(forward-char)
(check "a function and its users" (string-match-p "Functions that use it: " (hover)) (hover))
(eglot-rename "some.text")
(check "a function with another name" (save-excursion (goto-char (point-min)) (search-forward "FUNCTION {some.text}" nil t)))
(goto-char (point-min))
(search-forward "FUNCTION {comma}")
(beginning-of-line)
(insert "FUNCTION {not.used} { skip$ }\n")
(let ((all (messages-at nil)))
  (check "a function that nothing uses" (seq-some (lambda (d) (string-match-p "Nothing uses `not.used`" (flymake-diagnostic-text d))) all) all))
;; A fault of the check, and the entry that triggers it.
(goto-char (point-min))
(search-forward "FUNCTION {proceedings}\n{")
(insert "\n  editor empty$ { \"none\" write$ } ")
(let ((start (point)))
  (insert "if$\n")
  (let ((all (messages-at nil)))
    (check "a fault of the style" (seq-some (lambda (d) (string-match-p "finds too little on the stack" (flymake-diagnostic-text d))) all) all))
  (let ((actions (eglot-code-actions start)))
    (check "an action for it" (equal (mapcar (lambda (a) (plist-get a :title)) actions) '("Insert the entry to try into library.bib")) actions)
    (eglot--apply-workspace-edit (plist-get (car actions) :edit))))
(with-current-buffer "library.bib"
  (check "an entry to try" (string-match-p "}\n\n@proceedings{a\\b.*}\n\\'" (buffer-string)) (buffer-string)))
(princ "done\n")
(kill-emacs 0)
