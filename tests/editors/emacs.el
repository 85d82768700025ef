;;; emacs.el --- Drives Emacs through a session of writing -*- lexical-binding: t; coding: utf-8 -*-

;; By keys, and writes what it saw to standard output.  It is started in a folder with a copy of the example, with
;; PROGRAM, PATIENCE, and STEPS, how many steps are taken.  A step is (NAME WHAT-TO-DO WHAT-MUST-BECOME-TRUE); one that isn't true
;; within ten seconds ends the session.

(require 'bibtex-live)
(prefer-coding-system 'utf-8)
(setq bibtex-live-program (getenv "PROGRAM")
      bibtex-live-interval 0.1
      bibtex-live-patience (string-to-number (getenv "PATIENCE"))
      make-backup-files nil
      auto-save-default nil)

(defun shown ()
  (with-current-buffer "*bibliography of paper*" (split-string (string-trim-right (buffer-string)) "\n")))

(defun shows (line)
  (member line (shown)))

(defun top ()
  "The first line of the window."
  (with-current-buffer "*bibliography of paper*"
    (save-excursion (goto-char (window-start (get-buffer-window)))
                    (buffer-substring (point) (line-end-position)))))

(defun listed ()
  "The lines of the list of messages."
  (with-current-buffer (bibtex-live--list (car bibtex-live--papers)) (cdr (split-string (buffer-string) "\n" t))))

(defun flagged (file)
  "What Flymake shows in the buffer of FILE, as (LINE TYPE TEXT)."
  (with-current-buffer file
    (mapcar (lambda (it) (list (line-number-at-pos (flymake-diagnostic-beg it)) (flymake-diagnostic-type it)
                               (flymake-diagnostic-text it)))
            (flymake-diagnostics))))

(defun type (line keys)
  "Go to LINE of the window's buffer, and type KEYS."
  (goto-char (point-min))
  (forward-line (1- line))
  (execute-kbd-macro keys))

(defun programs ()
  (mapcar #'process-id (cl-remove-if-not (lambda (it) (and (process-live-p it) (process-command it))) (process-list))))

(defvar killed nil)

(defun add-to-aux (lines)
  (with-temp-buffer
    (insert-file-contents "paper.aux")
    (while (search-forward "bibdata{library}" nil t) (replace-match "bibdata{library,more}"))
    (goto-char (point-max))
    (insert lines)
    (write-region nil nil "paper.aux" nil 'silent)))

(defun write-more (text)
  (write-region text nil "more.bib" nil 'silent))

(defvar steps
  '(("the bibliography is shown"
     (progn (find-file "library.bib") (bibtex-live (bibtex-live--guess)))
     (shows "\\newblock {\\em Theory of Games and Economic Behavior}."))
    ("a word that is typed into a title is in the window"
     (type 19 "\C-sTheory of\r Zero-Sum")
     (and (shows "\\newblock {\\em Theory of Zero-Sum Games and Economic Behavior}.")
          (equal (top) "\\bibitem[vNM44]{neumann:games}")))
    ("a letter of two bytes"
     (type 19 [?\C-s ?B ?e ?h ?a ?v ?i ?o ?r ?\r ?  ?f ?ü ?r ?  ?a ?l ?l ?e])
     (shows "\\newblock {\\em Theory of Zero-Sum Games and Economic Behavior für alle}."))
    ("an entry without the comma after its key has its error at the next line"
     (type 17 "\C-e\C-?")
     (and (member "library.bib:18: error: I was expecting a `,' or a `}'" (listed))
          (equal (flagged "library.bib") '((18 :error "I was expecting a `,' or a `}'")))))
    ("the list leads there"
     (progn (bibtex-live-messages) (next-error 1 t))
     (and (equal (buffer-name) "library.bib") (= (line-number-at-pos) 18)))
    ("and none once it is mended"
     (type 17 "\C-e,")
     (and (null (listed)) (null (flagged "library.bib"))
          (shows "\\newblock {\\em Theory of Zero-Sum Games and Economic Behavior für alle}.")))
    ("a macro that is not defined has its warning"
     (type 13 "\C-e\C-bw")
     (and (equal (listed) '("library.bib:13: warning: string name \"aww\" is undefined"))
          (equal (flagged "library.bib") '((13 :warning "string name \"aww\" is undefined")))))
    ("a text with CR and LF in Latin-1"
     (progn (type 13 "\C-e\C-b\C-?")
            (set-buffer-file-coding-system 'latin-1-dos)
            (type 19 "\C-e\C-b\C-b und mehr"))
     (and (null (listed)) (shows "  mehr}.")
          (shows "\\newblock {\\em Theory of Zero-Sum Games and Economic Behavior für alle und")))
    ("the program is killed, and comes back with what is typed on"
     (progn (setq killed (car (programs)))
            (signal-process killed 'KILL)
            (type 12 "\C-e\C-b\C-b again"))
     (and (shows "\\newblock {\\em The {\\TeX}book again}.")
          (= (length (programs)) 1) (/= (car (programs)) killed)))
    ("the entry at point alone"
     (progn (bibtex-live-view 'entry) (type 28 "\C-e"))
     (and (equal (shown) '("\\bibitem[Ste90]{steele:lisp}" "Guy~L. Steele, Jr."
                           "\\newblock {\\em Common {Lisp}: The Language}."
                           "\\newblock Digital Press, second edition, 1990."))
          (equal (top) (car (shown)))))
    ("one whose label has braces"
     (type 32 "\C-e")
     (and (equal (nth 0 (shown)) "\\bibitem[G{\\\"o}d31]{goedel:saetze}")
          (equal (nth 1 (shown)) "Kurt G{\\\"o}del.")))
    ("an .aux file that LaTeX wrote, with one more citation"
     (progn (bibtex-live-view 'all) (add-to-aux "\\citation{lamport:clocks}\n\\citation{new:one}\n"))
     (shows "\\bibitem[Lam78]{lamport:clocks}"))
    ("a database that is not there, and a citation without an entry"
     nil
     (equal (listed) '("paper.aux:12: error: I couldn't open database file more.bib"
                       "paper.aux:15: warning: I didn't find a database entry for \"new:one\"")))
    ("both are well once the file is there"
     (write-more "@misc{new:one, title = {A New One}, year = 2001}\n")
     (and (null (listed)) (shows "\\newblock A new one.")))
    ("a database that is too large keeps its text"
     (write-more (concat "@misc{new:one, title = {" (make-string 1048576 ?x) "}}\n"))
     (and (equal (listed) '("more.bib:1: error: more.bib isn't sent: it has more than 1048576 bytes"))
          (shows "\\newblock A new one.")))
    ("and a smaller one is sent again, NUL bytes too"
     (write-more "@misc{new:one, title = {One\0 and no more}}\n")
     (and (null (listed)) (shows "\\newblock One\0 and no more.")))
    ("a style with a fault has its error"
     (progn (find-file "labels.bst") (type 1 "FOO\r"))
     (and (equal (listed) '("labels.bst:1: error: This isn't a command"))
          (equal (flagged "labels.bst") '((1 :error "This isn't a command")))
          (shows "\\newblock {\\em The {\\TeX}book again}.")
          (with-current-buffer "*bibliography of paper*" (string-match-p "last good" (bibtex-live--tally)))))
    ("and none once it is mended"
     (type 1 "\C-k\C-k")
     (and (null (listed)) (null (flagged "labels.bst")) (shows "\\newblock {\\em The {\\TeX}book again}.")))
    ("the end"
     (bibtex-live-stop)
     (null (programs)))
    ("a paper whose name the program does not take"
     (progn (copy-file "paper.aux" "my paper.aux")
            (write-region "\\citation{no:one}\n" nil "my paper.aux" t 'silent)
            (bibtex-live "my paper.aux"))
     (and (with-current-buffer "*bibliography of my paper*" (string-match-p "knuth:texbook" (buffer-string)))
          (equal (listed) '("my paper.aux:16: warning: I didn't find a database entry for \"no:one\""))))
    ("of the citations without an entry only the first, while a database is missing"
     (progn (write-region (concat "\\relax\n\\bibstyle{labels}\n\\bibdata{lost}\n"
                                  (mapconcat (lambda (n) (format "\\citation{lost:%d}\n" n)) (number-sequence 0 29) ""))
                          nil "lost.aux" nil 'silent)
            (bibtex-live "lost.aux"))
     (equal (listed)
            '("lost.aux:3: error: I couldn't open database file lost.bib"
              "lost.aux:1: error: I found no database files---while reading file lost.aux"
              "lost.aux:4: warning: I didn't find a database entry for \"lost:0\" (nor for 29 others, while a database is missing)")))))

(defun drive ()
  (cl-loop for (name action wanted) in steps
           repeat (string-to-number (getenv "STEPS"))
           do (let ((inhibit-message t) (end (+ 10 (float-time))))
                (eval action t)
                (while (not (or (eval wanted t) (> (float-time) end)))
                  (accept-process-output nil 0.02))
                (unless (eval wanted t)
                  (princ (format "FAILED: %s\nThe window has:\n%s\nThe messages are:\n%s\n%s\n" name
                                 (string-join (shown) "\n") (string-join (listed) "\n")
                                 (with-current-buffer "*Messages*" (buffer-string))))
                  (kill-emacs 1)))
           (princ (format "passed: %s\n" name)))
  (princ (format "done, started again %d times\n"
                 (with-current-buffer "*Messages*" (count-matches "it is started again" (point-min) (point-max))))))

(drive)
