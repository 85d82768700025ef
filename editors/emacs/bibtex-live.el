;;; bibtex-live.el --- The bibliography of a paper, as it is typed -*- lexical-binding: t -*-

;; Version: 0.9.0
;; Package-Requires: ((emacs "26.1"))
;; Keywords: bib, tex

;;; Commentary:

;; `M-x bibtex-live' in a buffer of a paper (its .tex, .aux, .bib or .bst file) starts `bibtex --resident PAPER', sends it
;; each change of these files as you type it, and shows the bibliography in a window.  latex must have written the .aux
;; file once.
;;
;;   M-x bibtex-live            start, or show the window again
;;   M-x bibtex-live-view       show `all' of the bibliography, the `entry' at point, or the `log'
;;   M-x bibtex-live-messages   errors and warnings as a list for `next-error'
;;   M-x bibtex-live-refresh    look at all files again, and search for those that weren't found
;;   M-x bibtex-live-stop       end the program of this paper
;;
;; Errors and warnings are shown at their lines by Flymake (unless `bibtex-live-flymake' is nil).  In a .bib file the entry
;; at point is the one that point is in; elsewhere it is the key at point, as in \cite{key}.
;;
;; A text that is changed and not saved is sent as it would be saved.  Files that aren't edited here are looked at every
;; second, so the .aux file that LaTeX writes is noticed.  Names are looked for in the folder of the .aux file, in the
;; folder where `bibtex-live' was called, in `bibtex-live-folders', and by kpsewhich where it is installed.
;;
;; If the program ends, it is started again, with all texts; after three ends within ten seconds not before the next
;; change.  If it doesn't answer for `bibtex-live-patience' seconds, it is killed and started again in the same way.
;;
;; To install it, put this file into a folder of `load-path', and into your init file:
;;
;;   (autoload 'bibtex-live "bibtex-live" nil t)
;;   (setq bibtex-live-program "/usr/local/bin/bibtex")

;;; Code:

(require 'cl-lib)
(require 'compile)
(require 'flymake)
(require 'subr-x)

(defgroup bibtex-live nil "The bibliography of a paper, as it is typed." :group 'tex)

(defcustom bibtex-live-program "bibtex" "The program." :type 'string)
(defcustom bibtex-live-arguments nil "Its further options, as \"--min-crossrefs=1\"." :type '(repeat string))
(defcustom bibtex-live-folders nil "Further folders in which files are looked for." :type '(repeat directory))
(defcustom bibtex-live-patience 20 "After so many seconds without an answer the program is killed." :type 'number)
(defcustom bibtex-live-interval 1 "Every so many seconds files are looked at that aren't edited here." :type 'number)
(defcustom bibtex-live-flymake t "Whether messages are shown by Flymake." :type 'boolean)
(defcustom bibtex-live-view 'all "What is shown at first." :type '(choice (const all) (const entry) (const log)))

(defconst bibtex-live--most-bytes 1048576 "How many bytes a text may have.")

(defconst bibtex-live--reasons
  '((1 . "its name may have only 1 to 64 of the characters A-Z a-z 0-9 . - _ + /")
    (2 . "the program has no such file")
    (3 . "the change lies outside of the text")
    (4 . "it has more than 1048576 bytes")
    (5 . "the program has 64 files already")
    (6 . "the program is out of memory")))

;; At most one command of a paper is in flight (`asked').  When its answer is there, `bibtex-live--pump' compares the texts
;; as they are with those that the program has, and sends the next difference: so the newest text wins.
(cl-defstruct (bibtex-live--paper (:constructor bibtex-live--new-paper))
  aux title name folders    ; its .aux file, what it's called here and by the program, and where its files are looked for
  names                     ; the files that the run wants, or wanted once
  (places nil)              ; where they are: (NAME . FILE)
  (unknown nil)             ; those that kpsewhich didn't find
  (texts nil)               ; what was read last: (NAME MARK . BYTES)
  process patience
  (sent nil)                ; the texts that the program has: (NAME . BYTES)
  asked edited stale        ; the command in flight, its (NAME . BYTES), and what is to be asked for after the edits
  (input "") wanted         ; what came and isn't read, and how many bytes of an answer are still to come
  (said "")                 ; the first line on standard error
  (ends nil) resting        ; when the program ended, and whether it waits for a change
  (bbl "") (blg "") (messages nil)
  (old nil)                             ; whether the last good bibliography is kept
  (refusals nil)            ; texts that aren't sent: (NAME CODE . BYTES)
  key view buffer)

(cl-defstruct (bibtex-live--message (:constructor bibtex-live--message (type text &optional file line)))
  type text file line)

(defvar bibtex-live--papers nil "The papers, the one that was started last first.")
(defvar bibtex-live--clock nil "The timer that looks at files.")
(defvar bibtex-live--soon nil "The timer of a change that isn't sent.")

;;; Commands

;;;###autoload
(defun bibtex-live (aux)
  "Show the bibliography of the paper with the file AUX, and keep it up to date."
  (interactive (list (or (bibtex-live--guess) (read-file-name "Paper (.aux): " nil nil t))))
  (let* ((aux (file-truename (concat (replace-regexp-in-string "\\.\\(aux\\|tex\\)\\'" "" aux) ".aux")))
         (title (file-name-base aux))
         ;; The program opens no file, so that a paper can have any name there.
         (name (if (bibtex-live--name-p (concat title ".aux")) title "paper"))
         (paper (cl-find aux bibtex-live--papers :key #'bibtex-live--paper-aux :test #'equal)))
    (cond ((not (file-readable-p aux)) (user-error "There is no %s: run latex first" aux))
          ((not (executable-find bibtex-live-program))
           (user-error "%s isn't a program: set bibtex-live-program" bibtex-live-program)))
    (unless paper
      (setq paper (bibtex-live--new-paper :aux aux :title title :name name :view bibtex-live-view
                                          :names (list (concat name ".aux"))
                                          :places (list (cons (concat name ".aux") aux))
                                          :folders (list (file-name-directory aux) default-directory
                                                         (file-name-directory (directory-file-name (file-name-directory aux))))))
      (push paper bibtex-live--papers))
    (setf (bibtex-live--paper-resting paper) nil)
    (bibtex-live--open paper)
    (bibtex-live--watch)
    (bibtex-live--pump paper)))

(defun bibtex-live--outputs (folder)
  "FOLDER, and the folders in which LaTeX may write its files."
  (let ((names '("." "build" "out" "output" "aux" ".aux" "tmp")))
    (dolist (rc '("latexmkrc" ".latexmkrc"))
      (when (file-readable-p (expand-file-name rc folder))
        (with-temp-buffer
          (insert-file-contents (expand-file-name rc folder))
          (while (re-search-forward "^[ \t]*\\$\\(?:aux\\|out\\)_dir[ \t]*=[ \t]*[\"']\\([^\"'\n]+\\)[\"']" nil t)
            (push (match-string 1) names)))))
    (cl-remove-if-not #'file-directory-p (mapcar (lambda (name) (expand-file-name name folder)) names))))

(defun bibtex-live--names (aux pattern)
  "Whether the file AUX has the regular expression PATTERN."
  (with-temp-buffer (insert-file-contents-literally aux) (re-search-forward pattern nil t)))

(defun bibtex-live--guess ()
  "The .aux file of this buffer, or nil.
It is that of its `% !TEX root', or of its name, or the newest one that names the file, or the newest one that names
databases: in its folder, in an output folder of it, or in the folder above."
  (let* ((case-fold-search t)
         (here (expand-file-name default-directory))
         (root (save-excursion
                 (goto-char (point-min))
                 (and (re-search-forward "^[ \t]*%[ \t]*!tex[ \t]+root[ \t]*=[ \t]*\\(.*[^ \t\n]\\)" 2000 t)
                      (expand-file-name (match-string-no-properties 1)))))
         (file (or root buffer-file-name ""))
         (base (file-name-base file))
         (found (sort (cl-remove-if-not
                       (lambda (aux) (bibtex-live--names aux "^\\\\bibdata{"))
                       (cl-mapcan (lambda (folder) (directory-files folder t "\\.aux\\'"))
                                  (cl-mapcan #'bibtex-live--outputs
                                             (if root (list (file-name-directory root))
                                               (list here (file-name-directory (directory-file-name here)))))))
                      #'file-newer-than-file-p)))
    (or (and (string-match-p "\\.\\(aux\\|tex\\)\\'" file)
             (cl-find base found :key #'file-name-base :test #'equal))
        (cl-find-if (lambda (aux)
                      (bibtex-live--names aux (concat "^\\\\\\(?:bibdata\\|bibstyle\\|@input\\){\\(?:[^}\n]*[,/]\\)?" (regexp-quote base)
                                                      "\\(?:\\.[a-z]+\\)?[,}]")))
                    found)
        (car found))))

(defun bibtex-live-view (view)
  "Show VIEW: `all' of the bibliography, the `entry' at point, or the `log'."
  (interactive (list (intern (completing-read "View: " '("all" "entry" "log") nil t))))
  (let ((paper (bibtex-live--here)))
    (setf (bibtex-live--paper-view paper) view)
    (bibtex-live--open paper)
    (bibtex-live--show paper)))

(defun bibtex-live-messages ()
  "Show the errors and warnings as a list; `next-error' goes through them."
  (interactive)
  (display-buffer (bibtex-live--list (bibtex-live--here))))

(defun bibtex-live-refresh ()
  "Look at all files again."
  (interactive)
  (dolist (paper bibtex-live--papers)
    (setf (bibtex-live--paper-unknown paper) nil
          (bibtex-live--paper-texts paper) nil
          (bibtex-live--paper-refusals paper) nil
          (bibtex-live--paper-resting paper) nil)
    (bibtex-live--pump paper)))

(defun bibtex-live-stop ()
  "End the program of this paper."
  (interactive)
  (let ((paper (bibtex-live--here)))
    (setq bibtex-live--papers (delq paper bibtex-live--papers))
    (bibtex-live--drop paper)))

(defun bibtex-live--here ()
  "The paper that this buffer belongs to: it uses its file, or its folder is the nearest; else the latest one."
  (let* ((file (and buffer-file-name (file-truename buffer-file-name)))
         (near (lambda (paper) (let ((folder (car (bibtex-live--paper-folders paper))))
                                 (if (and file (string-prefix-p folder file)) (length folder) 0)))))
    (or (cl-find-if (lambda (paper) (or (eq (current-buffer) (bibtex-live--paper-buffer paper))
                                        (and file (rassoc file (bibtex-live--paper-places paper)))))
                    bibtex-live--papers)
        (car (cl-stable-sort (copy-sequence bibtex-live--papers) #'> :key near))
        (user-error "No paper is shown: M-x bibtex-live"))))

;;; Changes

(defun bibtex-live--watch ()
  "Notice changes of buffers and files."
  (add-hook 'find-file-hook #'bibtex-live--attach)
  (dolist (buffer (buffer-list))
    (with-current-buffer buffer (bibtex-live--attach)))
  (unless bibtex-live--clock
    (setq bibtex-live--clock (run-with-timer bibtex-live-interval bibtex-live-interval #'bibtex-live--tick))))

(defun bibtex-live--attach ()
  "Notice what happens in this buffer, if it visits a file of a paper."
  (when (and buffer-file-name (string-match-p "\\.\\(aux\\|bib\\|bst\\|tex\\)\\'" buffer-file-name))
    (add-hook 'post-command-hook #'bibtex-live--follow nil t)
    (unless (string-suffix-p ".tex" buffer-file-name)
      (add-hook 'after-change-functions #'bibtex-live--changed nil t)
      (add-hook 'after-save-hook #'bibtex-live--changed nil t)
      (when bibtex-live-flymake
        (add-hook 'flymake-diagnostic-functions #'bibtex-live--flymake nil t)))))

(defun bibtex-live--changed (&rest _)
  "Send what changed once Emacs has drawn the change."
  (unless bibtex-live--soon
    (setq bibtex-live--soon
          (run-with-timer 0.01 nil (lambda ()
                                     (setq bibtex-live--soon nil)
                                     (dolist (paper bibtex-live--papers)
                                       (setf (bibtex-live--paper-resting paper) nil))
                                     (bibtex-live--tick))))))

(defun bibtex-live--tick ()
  "Send what changed."
  (mapc #'bibtex-live--pump bibtex-live--papers))

;;; The program

(defun bibtex-live--launch (paper)
  "Start the program of PAPER."
  ;; Emacs reads 4096 bytes at a time otherwise, so a bibliography comes in dozens of pieces.
  (when (boundp 'read-process-output-max)
    (setq read-process-output-max (max read-process-output-max 1048576)))
  (setf (bibtex-live--paper-sent paper) nil
        (bibtex-live--paper-asked paper) nil
        (bibtex-live--paper-stale paper) nil
        (bibtex-live--paper-input paper) ""
        (bibtex-live--paper-wanted paper) nil
        (bibtex-live--paper-said paper) "")
  (let ((default-directory (car (bibtex-live--paper-folders paper)))
        (errors (make-pipe-process :name "bibtex-live-errors" :noquery t :sentinel #'ignore
                                   :filter (lambda (_ said)
                                             (when (string-empty-p (bibtex-live--paper-said paper))
                                               (setf (bibtex-live--paper-said paper) (car (split-string said "\n"))))))))
    (setf (bibtex-live--paper-process paper)
          (make-process :name "bibtex-live" :connection-type 'pipe :coding 'no-conversion :noquery t
                        :command `(,bibtex-live-program "--resident" ,@bibtex-live-arguments
                                                        ,(bibtex-live--paper-name paper))
                        :stderr errors
                        :filter (lambda (process bytes) (bibtex-live--receive paper process bytes))
                        :sentinel (lambda (process _) (bibtex-live--ended paper process errors))))))

(defun bibtex-live--drop (paper)
  "End the program of PAPER; what it still says is for nobody."
  (let ((process (bibtex-live--paper-process paper)))
    (bibtex-live--calm paper)
    (setf (bibtex-live--paper-process paper) nil)
    (when process (delete-process process))))

(defun bibtex-live--again (paper why)
  "Start the program of PAPER anew, with all texts, and report WHY.
Where it ended three times within ten seconds it waits for a change."
  (bibtex-live--drop paper)
  (let ((now (float-time)))
    (setf (bibtex-live--paper-ends paper)
          (cons now (cl-remove-if (lambda (end) (< end (- now 10))) (bibtex-live--paper-ends paper)))
          (bibtex-live--paper-resting paper) (>= (length (bibtex-live--paper-ends paper)) 3)))
  (message "bibtex-live: %s; it is started again%s" why
           (if (bibtex-live--paper-resting paper) " at the next change" ""))
  (bibtex-live--pump paper))

(defun bibtex-live--ended (paper process errors)
  "Start the program of PAPER anew where PROCESS, whose standard error is ERRORS, has ended by itself."
  (unless (process-live-p process)
    (when (eq process (bibtex-live--paper-process paper))
      (accept-process-output errors 0.05)
      (bibtex-live--again paper (concat "the program has ended"
                                        (let ((said (bibtex-live--paper-said paper)))
                                          (if (string-empty-p said) "" (format " (%s)" said))))))
    (delete-process errors)))

(defun bibtex-live--calm (paper)
  "Stop waiting for an answer of PAPER."
  (when (bibtex-live--paper-patience paper)
    (cancel-timer (bibtex-live--paper-patience paper))
    (setf (bibtex-live--paper-patience paper) nil)))

(defun bibtex-live--say (paper asked line bytes)
  "Send PAPER's program a command: LINE and the BYTES that it brings.  ASKED says what the answer is about."
  (bibtex-live--calm paper)
  (setf (bibtex-live--paper-asked paper) asked
        (bibtex-live--paper-patience paper)
        (run-with-timer bibtex-live-patience nil
                        (lambda ()
                          (bibtex-live--again paper (format "no answer for %s seconds: the program is stopped"
                                                            bibtex-live-patience)))))
  (condition-case nil
      (let ((process (bibtex-live--paper-process paper)))
        (process-send-string process (concat line "\n"))
        (unless (string-empty-p bytes) (process-send-string process bytes)))
    (file-error nil)             ; The pipe is closed: `bibtex-live--ended' comes.
    (error nil)))

(defun bibtex-live--pump (paper)
  "Do what is to be done next for PAPER: an edit, else what the last edits made stale."
  (unless (or (bibtex-live--paper-process paper) (bibtex-live--paper-resting paper)
              (not (memq paper bibtex-live--papers)))
    (bibtex-live--launch paper))
  (when (and (bibtex-live--paper-process paper) (not (bibtex-live--paper-asked paper))
             (not (bibtex-live--edit paper)) (bibtex-live--paper-stale paper))
    (let ((stale (bibtex-live--paper-stale paper)))
      (bibtex-live--say paper stale (symbol-name stale) ""))))

(defun bibtex-live--edit (paper)
  "Send the first difference between the texts of PAPER and those that its program has; nil if there is none.
The .aux files come first and the style last, so that its functions are run once."
  (cl-flet ((rank (name) (cond ((string-suffix-p ".aux" name) 0) ((string-suffix-p ".bib" name) 1) (t 2))))
    (cl-loop for name in (cl-stable-sort (copy-sequence (bibtex-live--paper-names paper)) #'< :key #'rank)
             for edit = (bibtex-live--edit-of paper name)
             when edit do
             (setf (bibtex-live--paper-edited paper) (cons name (nth 2 edit)))
             (bibtex-live--say paper 'edit (nth 0 edit) (nth 1 edit))
             and return t)))

(defun bibtex-live--edit-of (paper name)
  "The edit that NAME of PAPER wants: its line, the bytes that it brings and the text that it makes; nil if none."
  (let* ((text (bibtex-live--present paper name))
         (known (cdr (assoc name (bibtex-live--paper-sent paper))))
         (refusal (cdr (assoc name (bibtex-live--paper-refusals paper)))))
    (cond ((null text) (and known (list (concat "remove " name) "" nil)))
          ((equal text known)
           (when refusal
             (setf (alist-get name (bibtex-live--paper-refusals paper) nil t #'equal) nil
                   (bibtex-live--paper-stale paper) 'blg))
           nil)
          ((and refusal (equal text (cdr refusal))) nil)
          ((or (not (bibtex-live--name-p name)) (> (length text) bibtex-live--most-bytes))
           (setf (alist-get name (bibtex-live--paper-refusals paper) nil nil #'equal)
                 (cons (if (bibtex-live--name-p name) 4 1) text)
                 (bibtex-live--paper-stale paper) 'blg)
           nil)
          (known (pcase-let ((`(,start ,end ,bytes) (bibtex-live--change known text)))
                   (list (format "splice %s %d %d %d" name start end (length bytes)) bytes text)))
          (t (list (format "write %s %d" name (length text)) text text)))))

(defun bibtex-live--name-p (name)
  "Whether the program takes NAME."
  (let ((case-fold-search nil))
    (string-match-p "\\`[A-Za-z0-9._+/-]\\{1,64\\}\\'" name)))

(defun bibtex-live--change (old new)
  "The smallest change that makes NEW of OLD, as (START END BYTES)."
  (let* ((differs (compare-strings old nil nil new nil nil))
         (start (if (eq differs t) (length old) (1- (abs differs))))
         (same 0)
         (high (- (min (length old) (length new)) start)))
    (while (< same high)
      (let ((half (/ (+ same high 1) 2)))
        (if (eq t (compare-strings old (- (length old) half) (- (length old) same)
                                   new (- (length new) half) (- (length new) same)))
            (setq same half)
          (setq high (1- half)))))
    (list start (- (length old) same) (substring new start (- (length new) same)))))

(defun bibtex-live--receive (paper process bytes)
  "Take the BYTES that PROCESS, the program of PAPER, has written."
  (when (eq process (bibtex-live--paper-process paper))
    (setf (bibtex-live--paper-input paper) (concat (bibtex-live--paper-input paper) bytes))
    (let (count)
      (while (and (eq process (bibtex-live--paper-process paper))
                  (setq count (bibtex-live--whole paper)))
        (let ((input (bibtex-live--paper-input paper))
              (wanted (bibtex-live--paper-wanted paper)))
          (setf (bibtex-live--paper-input paper) (substring input (if wanted count (1+ count)))
                (bibtex-live--paper-wanted paper) nil)
          (if wanted
              (bibtex-live--taken paper (substring input 0 count))
            (bibtex-live--answered paper (substring input 0 count))))))))

(defun bibtex-live--whole (paper)
  "The length of the line or of the bytes that PAPER waits for; nil if they aren't all there."
  (let ((wanted (bibtex-live--paper-wanted paper))
        (input (bibtex-live--paper-input paper)))
    (if wanted (and (>= (length input) wanted) wanted) (cl-position ?\n input))))

(defun bibtex-live--answered (paper line)
  "Take LINE, the first one of an answer to PAPER."
  (let ((asked (bibtex-live--paper-asked paper))
        (name (car (bibtex-live--paper-edited paper)))
        (text (cdr (bibtex-live--paper-edited paper))))
    (cond ((and (eq asked 'edit) (string-match-p "\\`ok [0-3] [0-9]+ [0-9]+ [0-9]+\\'" line))
           (setf (alist-get name (bibtex-live--paper-sent paper) nil t #'equal) text
                 (bibtex-live--paper-stale paper) 'blg)
           (bibtex-live--next paper))
          ((and (eq asked 'edit) (string-match "\\`refused \\([1-6]\\)\\'" line))
           (let ((code (string-to-number (match-string 1 line))))
             (if (and (memq code '(2 3)) (assoc name (bibtex-live--paper-sent paper)))
                 (setf (alist-get name (bibtex-live--paper-sent paper) nil t #'equal) nil)
               (setf (alist-get name (bibtex-live--paper-refusals paper) nil nil #'equal) (cons code text))))
           (setf (bibtex-live--paper-stale paper) 'blg)
           (bibtex-live--next paper))
          ((and (memq asked '(bbl blg)) (string-match (format "\\`%s \\([0-9]\\{1,15\\}\\)\\'" asked) line))
           (setf (bibtex-live--paper-wanted paper) (string-to-number (match-string 1 line))))
          (t (bibtex-live--again paper (format "an answer that isn't one (%.60s): the program is stopped" line))))))

(defun bibtex-live--taken (paper bytes)
  "Take BYTES, those of the answer that PAPER waited for."
  (let ((text (decode-coding-string bytes (bibtex-live--coding paper))))
    (if (eq (bibtex-live--paper-asked paper) 'blg)
        (progn (setf (bibtex-live--paper-blg paper) text
                     (bibtex-live--paper-stale paper) 'bbl)
               (bibtex-live--read paper))
      ;; If there is no bibliography, as while a style is being written, the last one stays.
      (setf (bibtex-live--paper-old paper) (and (equal text "") (not (equal (bibtex-live--paper-bbl paper) "")))
            (bibtex-live--paper-stale paper) nil)
      (unless (bibtex-live--paper-old paper) (setf (bibtex-live--paper-bbl paper) text))
      (bibtex-live--show paper)
      (bibtex-live--list paper)
      (bibtex-live--diagnose paper))
    (bibtex-live--next paper)))

(defun bibtex-live--next (paper)
  "Go on after an answer to PAPER."
  (bibtex-live--calm paper)
  (setf (bibtex-live--paper-asked paper) nil)
  (bibtex-live--pump paper))

;;; Texts

(defun bibtex-live--present (paper name)
  "The bytes of NAME of PAPER as they are now; nil if there is no such file.
They are those of the buffer where it has changes that aren't saved, else those of the file."
  (when-let ((file (bibtex-live--place paper name)))
    (let* ((buffer (bibtex-live--buffer file))
           (typed (and buffer (or (buffer-modified-p buffer) (not (file-exists-p file)))))
           (mark (if typed (list buffer (buffer-chars-modified-tick buffer)
                                 (buffer-local-value 'buffer-file-coding-system buffer))
                   (let ((facts (file-attributes file)))
                     (list file (file-attribute-modification-time facts) (file-attribute-size facts)))))
           (kept (assoc name (bibtex-live--paper-texts paper))))
      (if (equal (cadr kept) mark)
          (cddr kept)
        (let ((text (if typed (bibtex-live--buffer-text buffer) (bibtex-live--file-text file))))
          (setf (alist-get name (bibtex-live--paper-texts paper) nil nil #'equal) (cons mark text))
          text)))))

(defun bibtex-live--place (paper name)
  "Where NAME of PAPER is, or nil."
  (let ((place (cdr (assoc name (bibtex-live--paper-places paper)))))
    (unless (and place (bibtex-live--there-p place))
      (setq place (or (cl-loop for folder in (append (bibtex-live--paper-folders paper) bibtex-live-folders)
                               for file = (file-truename (expand-file-name name folder))
                               when (bibtex-live--there-p file) return file)
                      (bibtex-live--search paper name)))
      (setf (alist-get name (bibtex-live--paper-places paper) nil t #'equal) place)
      (when place (bibtex-live--attend place)))
    place))

(defun bibtex-live--search (paper name)
  "Where kpsewhich finds NAME of PAPER, or nil."
  (when (and (string-match-p "\\`[^-].*\\.\\(bib\\|bst\\)\\'" name)
             (not (member name (bibtex-live--paper-unknown paper)))
             (executable-find "kpsewhich"))
    (let ((file (with-temp-buffer
                  (let ((default-directory (car (bibtex-live--paper-folders paper))))
                    (when (eql 0 (call-process "kpsewhich" nil '(t nil) nil name))
                      (expand-file-name (string-trim (buffer-string))))))))
      (if (and file (file-readable-p file) (not (file-directory-p file)))
          (file-truename file)
        (push name (bibtex-live--paper-unknown paper))
        nil))))

(defun bibtex-live--attend (file)
  "Turn on Flymake in the buffer of FILE."
  (when-let ((buffer (and bibtex-live-flymake (bibtex-live--buffer file))))
    (with-current-buffer buffer
      (bibtex-live--attach)
      (unless flymake-mode
        (setq-local flymake-diagnostic-functions (list #'bibtex-live--flymake))
        (flymake-mode 1)))))

(defun bibtex-live--there-p (file)
  "Whether FILE can be read or is edited."
  (or (and (file-readable-p file) (not (file-directory-p file))) (bibtex-live--buffer file)))

(defun bibtex-live--buffer (file)
  "The buffer that visits FILE, or nil."
  (find-buffer-visiting file))

(defun bibtex-live--buffer-text (buffer)
  "The bytes that saving BUFFER would write."
  (with-current-buffer buffer
    (save-restriction
      (widen)
      (let ((coding (or buffer-file-coding-system 'utf-8-unix)))
        (when (eq (coding-system-type coding) 'undecided)
          (setq coding (coding-system-change-text-conversion coding 'utf-8)))
        (encode-coding-region (point-min) (point-max) coding t)))))

(defun bibtex-live--coding (paper)
  "The coding system of the first database of PAPER that is edited here."
  (let ((coding (cl-loop for (name . file) in (bibtex-live--paper-places paper)
                         for buffer = (and (string-suffix-p ".bib" name) (bibtex-live--buffer file))
                         thereis (and buffer (buffer-local-value 'buffer-file-coding-system buffer)))))
    (if (memq (and coding (coding-system-type coding)) '(nil undecided))
        'utf-8-unix
      (coding-system-change-eol-conversion coding 'unix))))

(defun bibtex-live--file-text (file)
  "The bytes of FILE; nil where it can't be read."
  (with-temp-buffer
    (set-buffer-multibyte nil)
    (condition-case nil
        (progn (insert-file-contents-literally file nil 0 (1+ bibtex-live--most-bytes))
               (buffer-string))
      (file-error nil))))

;;; The log

(defun bibtex-live--read (paper)
  "Take the messages out of the log of PAPER, and the files that its run wants."
  (let ((lines (split-string (bibtex-live--paper-blg paper) "\n"))
        (place "--line \\([0-9]+\\) of file \\([A-Za-z0-9._+/-]\\{1,64\\}\\)\\'")
        (case-fold-search nil)
        (counts 0)
        (messages nil))
    (cl-flet ((add (type text &optional file line)
                (push (bibtex-live--message type text file line) messages)
                (when (string-match "\\`I couldn't open \\(?:auxiliary\\|database\\|style\\) file \\(.*\\)" text)
                  (cl-pushnew (match-string 1 text) (bibtex-live--paper-names paper) :test #'equal)))
              (at (text) (list (match-string 2 text) (string-to-number (match-string 1 text)))))
      (while lines
        (let ((line (pop lines)) (next (or (car lines) "")))
          (cond ((string-prefix-p "Warning--" line)
                 (cond ((string-match (concat "\\`" place) next)
                        (apply #'add :warning (substring line 9) (at next))
                        (pop lines))
                       (t (when (and (string-prefix-p "Warning--you've nested" line)
                                     (string-prefix-p "refers to entry \"" next))
                            (pop lines))
                          (add :warning (substring line 9)))))
                ((string-match (concat "\\`while executing-" place) next)
                 (apply #'add :error line (at next))
                 (pop lines))
                ((string-match (concat "-" place) line)
                 (apply #'add :error (substring line 0 (match-beginning 0)) (at line))
                 (when (string-prefix-p "I'm skipping whatever remains of this" next) (pop lines)))
                ((string-match "---while reading file \\(.*\\)\\'" line)
                 (add :error line (match-string 1 line) 1))
                ((and (string-prefix-p "A bad cross reference---entry \"" line)
                      (string-prefix-p "refers to entry \"" next))
                 (add :error (concat line " " (pop lines))))
                ((string-prefix-p "I couldn't open auxiliary file " line) (add :error line))
                ((string-prefix-p "The built-in function-call counts, " line) (setq counts 37))
                ((and (> counts 0) (string-match-p "\\`[^ ]+ -- [0-9]+\\'" line)) (cl-decf counts))
                ((string-match-p (concat "\\`\\(?:The top-level auxiliary file: .*\\|A level-[0-9]+ auxiliary file: .*\\|"
                                         "The style file: .*\\|Database file #.*\\|"
                                         "(\\(?:There was \\|There were \\|That was a fatal\\).*)\\|\\)\\'")
                                 line))
                (t (add :note line))))))
    (setf (bibtex-live--paper-messages paper)
          (append (bibtex-live--refused paper) (bibtex-live--fold (bibtex-live--locate paper (nreverse messages)))))))

(defun bibtex-live--fold (messages)
  "Drop all but the first of MESSAGES about citations without an entry while a database is missing."
  (cl-flet ((all (words) (seq-filter (lambda (message) (string-prefix-p words (bibtex-live--message-text message))) messages)))
    (let ((lost (all "I didn't find a database entry for ")))
      (when (and (cdr lost) (all "I couldn't open database file "))
        (setf (bibtex-live--message-text (car lost))
              (format "%s (nor for %d others, while a database is missing)" (bibtex-live--message-text (car lost)) (length (cdr lost)))
              messages (seq-remove (lambda (message) (memq message (cdr lost))) messages)))
      messages)))

(defun bibtex-live--refused (paper)
  "Messages about the texts of PAPER that aren't sent."
  (cl-loop for (name code . _) in (bibtex-live--paper-refusals paper)
           collect (bibtex-live--message :error (format "%s isn't sent: %s" name (alist-get code bibtex-live--reasons))
                                         name 1)))

(defun bibtex-live--locate (paper messages)
  "Give MESSAGES of PAPER their lines, where they have none.
It is that of the entry, or of the \\citation, whose key the message ends with;
only the first 25 of them are looked for."
  (let ((left 25))
    (dolist (message messages messages)
      (unless (or (bibtex-live--message-file message) (eq (bibtex-live--message-type message) :note) (= left 0))
        (cl-decf left)
        (let ((text (bibtex-live--message-text message)))
          (when (or (string-match "--entry \"\\([^\" ]+\\)\"" text)
                    (string-match "\\(?:\"\\([^\" ]+\\)\"\\|\\([^ ]+\\)\\)\\'" text))
            (let ((key (regexp-quote (encode-coding-string (or (match-string 1 text) (match-string 2 text)) 'utf-8))))
              (or (bibtex-live--locate-by paper message ".bib"
                                          (concat "@[ \t\r\n]*[^ \t\r\n@{(]+[ \t\r\n]*[{(][ \t\r\n]*\\(" key "\\)[ \t\r\n]*[,})]"))
                  (bibtex-live--locate-by paper message ".aux"
                                          (concat "\\\\citation{\\(?:[^}\n]*,\\)?\\(" key "\\)[,}]"))))))))))

(defun bibtex-live--locate-by (paper message ending pattern)
  "Give MESSAGE the line of the first group of PATTERN in the files of PAPER with this ENDING; nil if there is none."
  (cl-loop for (name . bytes) in (bibtex-live--paper-sent paper)
           when (and (string-suffix-p ending name)
                     (with-temp-buffer
                       (set-buffer-multibyte nil)
                       (insert bytes)
                       (goto-char (point-min))
                       (let ((case-fold-search t))
                         (when (re-search-forward pattern nil t)
                           (setf (bibtex-live--message-file message) name
                                 (bibtex-live--message-line message) (line-number-at-pos (match-beginning 1)))))))
           return t))

(defun bibtex-live--list (paper)
  "The buffer with the messages of PAPER, for `next-error'."
  (let ((list (get-buffer-create (format "*messages of %s*" (bibtex-live--paper-title paper))))
        (folder (car (bibtex-live--paper-folders paper))))
    (with-current-buffer list
      (unless (derived-mode-p 'compilation-mode)
        (compilation-mode "BibTeX"))
      (setq default-directory folder)
      (let ((inhibit-read-only t)
            ;; A line without a place comes first: `next-error' goes from there to the first one with a place.
            (text (concat (format "The messages of %s:\n" (bibtex-live--paper-title paper))
                          (mapconcat (lambda (message) (bibtex-live--line paper message))
                                     (bibtex-live--paper-messages paper) ""))))
        (unless (equal text (buffer-string))
          (erase-buffer)
          (insert text)
          (goto-char (point-min))
          (setq compilation-current-error nil))))
    list))

(defun bibtex-live--line (paper message)
  "MESSAGE of PAPER as a line like those of a compiler."
  (let* ((name (bibtex-live--message-file message))
         (place (and name (cdr (assoc name (bibtex-live--paper-places paper))))))
    (concat (and name (format "%s:%d: %s: "
                              (if place (file-relative-name place (car (bibtex-live--paper-folders paper))) name)
                              (bibtex-live--message-line message)
                              (substring (symbol-name (bibtex-live--message-type message)) 1)))
            (bibtex-live--message-text message) "\n")))

(defun bibtex-live--diagnose (paper)
  "Have Flymake show the messages of PAPER."
  (when bibtex-live-flymake
    (cl-loop for (_ . file) in (bibtex-live--paper-places paper)
             for buffer = (bibtex-live--buffer file)
             when buffer do (with-current-buffer buffer
                              (bibtex-live--attend file)
                              (flymake-start)))))

(defun bibtex-live--flymake (report &rest _)
  "Hand the messages about this buffer to REPORT, a function of Flymake."
  (let* ((file (and buffer-file-name (file-truename buffer-file-name)))
         (buffer (current-buffer)))
    (funcall report
             (cl-loop for paper in bibtex-live--papers
                      for name = (car (rassoc file (bibtex-live--paper-places paper)))
                      append
                      (cl-loop for message in (and name (bibtex-live--paper-messages paper))
                               when (and (equal name (bibtex-live--message-file message))
                                         (not (eq :note (bibtex-live--message-type message))))
                               collect
                               (pcase-let ((`(,from . ,to) (bibtex-live--region (bibtex-live--message-line message))))
                                 (flymake-make-diagnostic buffer from to (bibtex-live--message-type message)
                                                          (bibtex-live--message-text message))))))))

(defun bibtex-live--region (line)
  "The region of LINE, for Flymake; of the last one where there are fewer."
  (save-excursion
    (save-restriction
      (widen)
      (goto-char (point-min))
      (forward-line (1- line))
      (when (and (eobp) (bolp) (not (bobp))) (forward-line -1))
      (back-to-indentation)
      (cons (point) (max (min (1+ (point)) (point-max)) (line-end-position))))))

;;; The window

(define-derived-mode bibtex-live-window-mode special-mode "Bibliography"
  "The window with the bibliography of a paper."
  (setq-local mode-line-process '(:eval (bibtex-live--tally))))

(defun bibtex-live--tally ()
  "How many errors and warnings there are, for the mode line."
  (when-let ((paper (cl-find (current-buffer) bibtex-live--papers :key #'bibtex-live--paper-buffer)))
    (cl-flet ((count (type word)
                (let ((n (cl-count type (bibtex-live--paper-messages paper) :key #'bibtex-live--message-type)))
                  (format " %d %s%s" n word (if (= n 1) "" "s")))))
      (concat (count :error "error") (count :warning "warning")
              (and (bibtex-live--paper-old paper) " (the last good bibliography)")))))

(defun bibtex-live--open (paper)
  "Show the window of PAPER."
  (unless (buffer-live-p (bibtex-live--paper-buffer paper))
    (let ((buffer (generate-new-buffer (format "*bibliography of %s*" (bibtex-live--paper-title paper)))))
      (with-current-buffer buffer (bibtex-live-window-mode))
      (setf (bibtex-live--paper-buffer paper) buffer)
      (bibtex-live--show paper)))
  (display-buffer (bibtex-live--paper-buffer paper)
                  `((display-buffer-reuse-window display-buffer-at-bottom)
                    (window-height . ,(lambda (window)
                                        ;; A small frame may have no room for it.
                                        (ignore-errors (window-resize window (- 15 (window-total-height window)))))))))

(defun bibtex-live--key ()
  "The key of the entry at point."
  (save-excursion
    (save-match-data
      (if (not (string-suffix-p ".bib" buffer-file-name))
          (let ((ends " \t\n,{}\\\\"))
            (skip-chars-backward (concat "^" ends))
            (buffer-substring-no-properties (point) (progn (skip-chars-forward (concat "^" ends)) (point))))
        (end-of-line)
        (if (and (re-search-backward "^[ \t]*@[ \t]*[^ \t\n@{(]+[ \t]*[{(]" nil t)
                 (looking-at "[ \t]*@[ \t]*\\([^ \t\n@{(]+\\)[ \t]*[{(][ \t\n]*\\([^ \t\n,}]*\\)")
                 (not (member (downcase (match-string 1)) '("string" "preamble" "comment"))))
            (match-string-no-properties 2)
          "")))))

(defun bibtex-live--item (paper key)
  "The \\bibitem of KEY in the bibliography of PAPER, as (BEGIN . END) counted from 0; nil if there is none."
  (with-temp-buffer
    (insert (bibtex-live--paper-bbl paper))
    (goto-char (point-min))
    (let ((case-fold-search t) (begin nil))
      (while (and (not begin) key (not (equal key "")) (search-forward (concat "{" key "}") nil t))
        (save-excursion
          (let ((key-at (match-beginning 0)))
            (when (search-backward "\\bibitem" nil t)
              (let ((item (point)))
                (forward-char 8)
                (bibtex-live--skip-label)
                (when (= (point) key-at) (setq begin item)))))))
      (when begin
        (goto-char (1+ begin))
        (cons (1- begin) (1- (if (re-search-forward "\n[ \t]*\\\\\\(?:bibitem\\|end{thebibliography}\\)" nil t)
                                 (match-beginning 0)
                               (point-max))))))))

(defun bibtex-live--skip-label ()
  "Go over a label in brackets, with its braces, and the space around it."
  (skip-chars-forward " \t\n%")
  (when (eq (char-after) ?\[)
    (let ((depth 0))
      (while (not (or (eobp) (and (= depth 0) (eq (char-after) ?\]))))
        (cond ((eq (char-after) ?{) (cl-incf depth))
              ((eq (char-after) ?}) (cl-decf depth)))
        (forward-char 1)))
    (unless (eobp) (forward-char 1)))
  (skip-chars-forward " \t\n%"))

(defun bibtex-live--show (paper)
  "Show the present view of PAPER in its window."
  (when (buffer-live-p (bibtex-live--paper-buffer paper))
    (let* ((bbl (bibtex-live--paper-bbl paper))
           (key (bibtex-live--paper-key paper))
           (view (bibtex-live--paper-view paper))
           (item (and (not (eq view 'log)) (bibtex-live--item paper key))))
      (bibtex-live--fill (bibtex-live--paper-buffer paper)
                         (cond ((eq view 'log) (bibtex-live--paper-blg paper))
                               ((equal bbl "") "(The bibliography is empty: the messages say why.)\n")
                               ((eq view 'all) bbl)
                               (item (concat (string-trim-right (substring bbl (car item) (cdr item))) "\n"))
                               ((member key '(nil "")) "(No entry is at point.)\n")
                               (t (format "(%s isn't in the bibliography.)\n" key)))
                         (cond ((eq view 'entry) 1)
                               (item (1+ (car item))))))))

(defun bibtex-live--fill (buffer text place)
  "Make TEXT the text of BUFFER, and show it from PLACE on, or from where it was shown if there is still something."
  (with-current-buffer buffer
    (let ((starts (mapcar (lambda (window) (cons window (window-start window))) (get-buffer-window-list buffer nil t)))
          (inhibit-read-only t))
      (unless (equal text (buffer-string))
        (erase-buffer)
        (insert text))
      (pcase-dolist (`(,window . ,start) starts)
        (let ((start (or place (if (< start (point-max)) start 1))))
          (set-window-point window start)
          (set-window-start window start)))
      (force-mode-line-update))))

(defun bibtex-live--follow ()
  "Show the entry at point, where it is another one."
  (when bibtex-live--papers
    (let* ((paper (bibtex-live--here))
           (key (bibtex-live--key)))
      (unless (equal key (bibtex-live--paper-key paper))
        (when (or (string-suffix-p ".bib" buffer-file-name) (bibtex-live--item paper key))
          (setf (bibtex-live--paper-key paper) key)
          (bibtex-live--show paper))))))

(provide 'bibtex-live)
;;; bibtex-live.el ends here
