;;; bibtex-lsp.el --- starts bibtex-lsp by Eglot  -*- lexical-binding: t -*-

;; Version: 0.9.0
;; Package-Requires: ((emacs "26.1"))

;;; Commentary:

;; Load this file, open a file of a paper, and type M-x eglot:
;;
;;   (load "~/.local/share/dulshenko/editors/emacs/bibtex-lsp.el")
;;
;; The paper is that of the file's `% !TEX root', else the newest .aux file that names the file: in the file's folder, in an
;; output folder of it, or in the folder above; else the newest one that names a database.  Eglot starts one server for each
;; project, so all files of a project belong to the paper of the first one.  Without version control, the project is the
;; paper's folder.  M-x bibtex-root chooses another paper.  `bibtex-lsp-job' names a job.
;;
;; What an entry prints is shown in the echo area, and whole by M-x eldoc-doc-buffer.  M-x bibtex-bibliography opens a window
;; with the bibliography, which follows each change; in it, M-. goes to the field that a character comes from, and C-c M-. to
;; the word of the style that wrote it.  M-x bibtex-log opens one with the log of the run.  M-x bibtex-follow-link opens the
;; file that is named at point in \bibliography or \include, and M-x bibtex-fold hides or shows the entry or function there.
;; A file that a definition leads to has the same server, also outside of the project: for this, `eglot-extend-to-xref' is set.

;;; Code:

(require 'cl-lib)
(require 'filenotify)
(require 'seq)

(declare-function eglot "eglot")
(declare-function eglot--guess-contact "eglot")
(declare-function eglot--lsp-position-to-point "eglot")
(declare-function eglot--path-to-uri "eglot")
(declare-function eglot--TextDocumentPositionParams "eglot")
(declare-function eglot--pos-to-lsp-position "eglot")
(declare-function eglot--uri-to-path "eglot")
(declare-function eglot--CompletionParams "eglot")
(declare-function eglot--TextDocumentIdentifier "eglot")
(declare-function eglot--file-watches "eglot")
(declare-function eglot--server-info "eglot")
(declare-function eglot--signal-textDocument/didChange "eglot")
(declare-function eglot-managed-p "eglot")
(declare-function eglot-current-server "eglot")
(declare-function eglot-shutdown "eglot")
(declare-function jsonrpc--process "jsonrpc")
(declare-function jsonrpc-async-request "jsonrpc")
(declare-function jsonrpc-notify "jsonrpc")
(declare-function jsonrpc-request "jsonrpc")
(declare-function jsonrpc-running-p "jsonrpc")
(defvar eglot-extend-to-xref)
(defvar eglot--servers-by-xrefed-file)

(defvar bibtex-lsp-program "bibtex-lsp" "The program.")
(defconst bibtex-lsp--tex-modes '(latex-mode plain-tex-mode tex-mode LaTeX-mode plain-TeX-mode TeX-mode)
  "The modes of LaTeX files, AUCTeX's too.  A chapter may look like plain TeX.")
(defvar bibtex-lsp-job nil "The job, the name of its .aux file without .aux, or nil.")

(defun bibtex-lsp--names-database (file)
  "Whether the .aux FILE names a database."
  (with-temp-buffer
    (insert-file-contents file)
    (search-forward "\\bibdata{" nil t)))

(defun bibtex-lsp--outputs (folder)
  "The folders in which LaTeX may write the files of FOLDER."
  (let ((names '("build" "out" "output" "aux" ".aux" "tmp")))
    (dolist (rc '("latexmkrc" ".latexmkrc"))
      (when (file-readable-p (expand-file-name rc folder))
        (with-temp-buffer
          (insert-file-contents (expand-file-name rc folder))
          (while (re-search-forward "^[ \t]*\\$\\(?:aux\\|out\\)_dir[ \t]*=[ \t]*[\"']\\([^\"'\n]+\\)[\"']" nil t)
            (push (match-string 1) names)))))
    (seq-filter #'file-directory-p
                (cons folder (mapcar (lambda (name) (expand-file-name name folder)) names)))))

(defun bibtex-lsp--jobs (folder)
  "The .aux files of FOLDER and its output folders that name a database, the newest first."
  (sort (seq-filter #'bibtex-lsp--names-database
                    (seq-mapcat (lambda (place) (directory-files place t "\\.aux\\'")) (bibtex-lsp--outputs folder)))
        #'file-newer-than-file-p))

(defun bibtex-lsp--is-about (aux file)
  "Whether the file AUX names FILE: as a database, as the style, or as a part of the paper."
  (let* ((kind (or (file-name-extension file) ""))
         (command (cond ((equal kind "bib") "bibdata") ((equal kind "bst") "bibstyle") (t "@input")))
         (name (concat (regexp-quote (file-name-base file)) (if (equal command "@input") "\\.aux" (concat "\\(?:\\." kind "\\)?")))))
    (with-temp-buffer
      (insert-file-contents aux)
      (re-search-forward (concat "^\\\\" command "{\\(?:[^}\n]*[,/]\\)?" name "[,}]") nil t))))

(defun bibtex-lsp--near ()
  "The folders whose papers may have the present file."
  (let ((here (expand-file-name default-directory)))
    (list here (file-name-directory (directory-file-name here)))))

(defun bibtex-lsp--root ()
  "The file that the present buffer's `% !TEX root' names, or nil."
  (save-excursion
    (save-restriction
      (widen)
      (goto-char (point-min))
      (let ((case-fold-search t))
        (when (re-search-forward "^[ \t]*%[ \t]*!tex[ \t]+root[ \t]*=[ \t]*\\(.*[^ \t\n]\\)" 2000 t)
          (expand-file-name (match-string-no-properties 1)))))))

(defun bibtex-lsp--found (file is-named)
  "The .aux file of FILE among those that are near, and the paper's folder, or nil.  If IS-NAMED, only one that names FILE."
  (let ((jobs (seq-mapcat (lambda (folder) (mapcar (lambda (aux) (cons aux folder)) (bibtex-lsp--jobs folder))) (bibtex-lsp--near))))
    (or (and (not (member (file-name-extension file) '("bib" "bst")))
             (seq-find (lambda (job) (equal (file-name-base (car job)) (file-name-base file))) jobs))
        (seq-find (lambda (job) (bibtex-lsp--is-about (car job) file)) jobs)
        (and (not is-named) (car jobs)))))

(defvar bibtex-lsp--chosen nil "The .aux files that `bibtex-root' has chosen, by the folder of the files.")

(defun bibtex-lsp--paper (&optional is-named)
  "The .aux file of the present buffer's paper, or nil, and the paper's folder.
If IS-NAMED, a file that no .aux file names has no paper."
  (let ((chosen (cdr (assoc (car (bibtex-lsp--near)) bibtex-lsp--chosen)))
        (root (bibtex-lsp--root)))
    (cond (chosen (cons chosen (or (seq-find (lambda (folder) (member chosen (bibtex-lsp--jobs folder))) (bibtex-lsp--near))
                                   (file-name-directory chosen))))
          (root (let ((folder (file-name-directory root))
                      (name (concat (file-name-nondirectory (replace-regexp-in-string "\\.tex\\'" "" root)) ".aux")))
                  (cons (seq-find #'file-readable-p (mapcar (lambda (place) (expand-file-name name place)) (bibtex-lsp--outputs folder)))
                        folder)))
          (t (or (bibtex-lsp--found (or buffer-file-name "") is-named) (cons nil (car (bibtex-lsp--near))))))))

(defun bibtex-lsp-contact (&rest _)
  "The command that starts the server for the present buffer."
  (let* ((paper (bibtex-lsp--paper))
         (aux (car paper))
         (job (or bibtex-lsp-job (and aux (file-name-base aux)))))
    (append (list bibtex-lsp-program)
            (mapcar (lambda (folder) (concat "--search=" (file-truename folder))) ; as in Eglot's URIs
                    (delete-dups (delq nil (append (list (cdr paper) (and aux (file-name-directory aux))) (bibtex-lsp--near)))))
            (when job (list (concat "--job=" job))))))

;;; Commands

;;;###autoload
(defun bibtex-root (aux)
  "Choose the paper of the files in this folder, by its .aux file AUX, and start its server."
  (interactive (list (let ((jobs (seq-mapcat #'bibtex-lsp--jobs (bibtex-lsp--near))))
                       (completing-read "The paper of this folder: " jobs nil nil nil nil (car jobs)))))
  (setf (alist-get (car (bibtex-lsp--near)) bibtex-lsp--chosen nil nil #'equal) (expand-file-name aux))
  (require 'eglot)
  (let ((server (eglot-current-server)))
    (when server
      (eglot-shutdown server)
      ;; Eglot would go on sending it the files that it led to.
      (maphash (lambda (file other) (when (eq other server) (remhash file eglot--servers-by-xrefed-file)))
               eglot--servers-by-xrefed-file)))
  (apply #'eglot (eglot--guess-contact)))

(defvar-local bibtex-lsp--source nil "The server and the request whose answer this buffer shows.")

(defun bibtex-lsp--fill (buffer text)
  "Put TEXT into BUFFER.  If a style that can't be read leaves no bibliography, the last good one stays, marked."
  (let ((mark "% This is the last good bibliography: the messages of the run say why there is no new one.\n"))
    (with-current-buffer buffer
      (let ((inhibit-read-only t)
            (is-kept (and (equal text "") (eq (cdr bibtex-lsp--source) :bibtex/bbl))))
        (cond ((not is-kept) (with-temp-buffer
                               (insert text)
                               (let ((new (current-buffer))) (with-current-buffer buffer (replace-buffer-contents new)))))
              ((save-excursion (goto-char (point-min)) (not (looking-at-p (regexp-quote mark))))
               (save-excursion (goto-char (point-min)) (insert mark))))))))

(defun bibtex-lsp--show (server)
  "Fill the buffers that show an answer of SERVER."
  (dolist (buffer (buffer-list))
    (let ((source (buffer-local-value 'bibtex-lsp--source buffer)))
      (when (eq (car source) server)
        (jsonrpc-async-request server (cdr source) nil
                               :success-fn (lambda (answer)
                                             (when (buffer-live-p buffer) (bibtex-lsp--fill buffer (plist-get answer :text))))
                               :error-fn #'ignore :timeout-fn #'ignore)))))

(defvar bibtex-lsp--waiting nil "The servers whose buffers are to be filled.")

(defun bibtex-lsp--show-soon (server)
  "Fill the buffers that show an answer of SERVER once the diagnostics of all open files are there."
  (unless (memq server bibtex-lsp--waiting)
    (push server bibtex-lsp--waiting)
    (run-with-timer 0 nil (lambda ()
                            (setq bibtex-lsp--waiting (delq server bibtex-lsp--waiting))
                            (when (jsonrpc-running-p server) (bibtex-lsp--show server))))))

(defun bibtex-lsp--follow (name request)
  "Show the answers to REQUEST in the buffer NAME."
  (let ((server (or (and (fboundp 'eglot-current-server) (eglot-current-server)) (car bibtex-lsp--source))))
    (unless server (user-error "Type M-x eglot in a file of the paper first"))
    (with-current-buffer (get-buffer-create name)
      (unless (derived-mode-p 'special-mode) (special-mode))
      (setq bibtex-lsp--source (cons server request))
      (local-set-key (kbd "M-.") #'bibtex-lsp-field)
      (local-set-key (kbd "C-c M-.") #'bibtex-lsp-word)
      (display-buffer (current-buffer)))
    (bibtex-lsp--show server)))

;;;###autoload
(defun bibtex-bibliography ()
  "Show the bibliography in a window that follows each change."
  (interactive)
  (bibtex-lsp--follow "*bibtex bibliography*" :bibtex/bbl))

;;;###autoload
(defun bibtex-log ()
  "Show the log of the run in a window that follows each change."
  (interactive)
  (bibtex-lsp--follow "*bibtex log*" :bibtex/log))

(defun bibtex-lsp--go (what)
  "Go to where the character at point comes from: WHAT is :field or :word."
  (let* ((origin (jsonrpc-request (car bibtex-lsp--source) :bibtex/origin (list :position (eglot--pos-to-lsp-position))))
         (place (plist-get origin what)))
    (unless place (user-error "Nothing is known of this place"))
    (let ((server (car bibtex-lsp--source))
          (file (eglot--uri-to-path (plist-get place :uri))))
      (bibtex-lsp--led server file)
      (find-file-other-window file)
      (goto-char (eglot--lsp-position-to-point (plist-get (plist-get place :range) :start))))))

(defun bibtex-lsp-field () "Go to the field that the character at point comes from." (interactive) (bibtex-lsp--go :field))
(defun bibtex-lsp-word () "Go to the word of the style that wrote the character at point." (interactive) (bibtex-lsp--go :word))

;;; Eglot

(defun bibtex-lsp--led (server file)
  "Note that SERVER leads to FILE, as Eglot does for a definition."
  (puthash (expand-file-name file) server eglot--servers-by-xrefed-file))

(defvar bibtex-lsp--names (make-hash-table :test #'equal) "The servers' URIs of files that have dots in them, by file.")

(defun bibtex-lsp--learn (uri-to-path uri)
  "Call URI-TO-PATH with URI.  If it has the database ../bib/b in it, as the .aux file does, note it for the file."
  (let ((file (funcall uri-to-path uri)))
    (when (and (stringp uri) (string-match-p "/\\.\\.?/" uri)) (puthash (expand-file-name file) uri bibtex-lsp--names))
    file))

(defun bibtex-lsp--translate (path-to-uri file)
  "The URI of FILE that a server has given it, else the one that PATH-TO-URI returns."
  (or (gethash file bibtex-lsp--names) (funcall path-to-uri file)))

(defun bibtex-lsp--changed (server file)
  "Tell SERVER that FILE has changed on disk."
  (when (jsonrpc-running-p server)
    (jsonrpc-notify server :workspace/didChangeWatchedFiles `(:changes [(:uri ,(eglot--path-to-uri file) :type 2)]))))

(defun bibtex-lsp--watched (server id)
  "The folders that Eglot watches for SERVER by its registration ID: those of the project's files."
  (mapcar (lambda (watch) (directory-file-name (file-notify--watch-directory (gethash watch file-notify-descriptors))))
          (seq-filter #'file-notify-valid-p (gethash id (eglot--file-watches server)))))

(defun bibtex-lsp--watch (server watched)
  "Watch the folders of SERVER's paper, in which LaTeX writes files, but for those that are WATCHED already."
  (let (timer)
    (dolist (word (process-command (jsonrpc--process server)))
      (when (and (string-match "\\`--search=\\(.*\\)" word) (file-directory-p (match-string 1 word))
                 (not (member (directory-file-name (match-string 1 word)) watched)))
        (file-notify-add-watch
         (match-string 1 word) '(change)
         (lambda (event)
           (let ((file (car (last event))))
             (cond ((eq (nth 1 event) 'stopped))
                   ((not (jsonrpc-running-p server)) (file-notify-rm-watch (car event)))
                   ((and (stringp file) (string-match-p "/[^.][^/]*\\.\\(?:aux\\|bib\\|bst\\)\\'" file))
                    ;; LaTeX writes a file in pieces: wait until it is quiet.
                    (when timer (cancel-timer timer))
                    (setq timer (run-with-timer 0.2 nil #'bibtex-lsp--changed server file)))))))))))

(defun bibtex-lsp--server ()
  "The present buffer's server, if it is bibtex-lsp, else nil."
  (let ((server (and (fboundp 'eglot-current-server) (eglot-current-server))))
    (and server (equal (plist-get (eglot--server-info server) :name) "bibtex-lsp") server)))

(defun bibtex-lsp--project (_folder)
  "For Eglot, the project of a paper that is under no version control: its folder, so that one server has all its files."
  (when (and (bound-and-true-p eglot-lsp-context)
             (apply #'derived-mode-p 'bibtex-mode 'bibtex-style-mode bibtex-lsp--tex-modes))
    (cons 'transient (cdr (bibtex-lsp--paper t)))))

;;; Completion

(defun bibtex-lsp--candidate (item)
  "The text that ITEM inserts, with the item as its property."
  (propertize (or (plist-get (plist-get item :textEdit) :newText) (plist-get item :label)) 'bibtex-lsp-item item))

(defun bibtex-lsp--fitting (string table predicate)
  "Of TABLE, those that have each word of STRING in their names or, for a key, in its author or title.
Names that begin with STRING come first."
  (let* ((case-fold-search t)
         (words (mapcar #'regexp-quote (split-string string)))
         (found (seq-filter (lambda (name)
                              (let ((text (or (plist-get (get-text-property 0 'bibtex-lsp-item name) :filterText) name)))
                                (seq-every-p (lambda (word) (string-match-p word text)) words)))
                            (all-completions "" table predicate)))
         (is-first (lambda (name) (string-prefix-p string name t))))
    (append (seq-filter is-first found) (seq-remove is-first found))))

(defun bibtex-lsp--all (string table predicate _point)
  "The completions of STRING, as a completion style."
  (bibtex-lsp--fitting string table predicate))

(defun bibtex-lsp--try (string table predicate point)
  "What STRING is completed to, as a completion style: the names that begin with it, if there are any, have the say."
  (let* ((fitting (bibtex-lsp--fitting string table predicate))
         (first (seq-filter (lambda (name) (string-prefix-p string name t)) fitting))
         (common (if first (let ((completion-ignore-case t)) (try-completion string first))
                   (and fitting (if (cdr fitting) string (car fitting))))))
    (cond ((eq common t) t)
          ((equal common string) (cons string point))
          (common (cons common (length common))))))

(add-to-list 'completion-styles-alist '(bibtex-lsp bibtex-lsp--try bibtex-lsp--all "Words of names, authors and titles."))
(add-to-list 'completion-category-defaults '(bibtex-lsp (styles bibtex-lsp)))

(defun bibtex-lsp--beginning (item)
  "Where the text before point begins that is completed, to which ITEM belongs.  Keys may have colons and spaces in them."
  (let ((edit (plist-get item :textEdit)))
    (save-excursion
      (cond ((apply #'derived-mode-p bibtex-lsp--tex-modes) (skip-chars-backward "^{,\n") (skip-chars-forward " \t"))
            (edit (goto-char (eglot--lsp-position-to-point (plist-get (plist-get edit :range) :start))))
            (t (skip-chars-backward "^ \t\n{}(,\"=@#")))
      (point))))

(defun bibtex-lsp-complete ()
  "Complete the name before point; for `completion-at-point-functions'."
  (let ((server (bibtex-lsp--server)))
    (when server
      (eglot--signal-textDocument/didChange)
      (let* ((answer (jsonrpc-request server :textDocument/completion (eglot--CompletionParams)))
             (items (sort (append (if (vectorp answer) answer (plist-get answer :items)) nil)
                          (lambda (a b) (string< (or (plist-get a :sortText) "") (or (plist-get b :sortText) "")))))
             (names (mapcar #'bibtex-lsp--candidate items)))
        (when items
          (list (bibtex-lsp--beginning (car items)) (point)
                (lambda (string predicate action)
                  (if (eq action 'metadata)
                      '(metadata (category . bibtex-lsp) (display-sort-function . identity))
                    (complete-with-action action names string predicate)))
                :annotation-function
                (lambda (name)
                  (let ((detail (plist-get (get-text-property 0 'bibtex-lsp-item name) :detail)))
                    (and detail (concat " " detail))))))))))

(defun bibtex-lsp--set-up ()
  "Complete by `bibtex-lsp-complete' where bibtex-lsp is the server."
  (if (and (eglot-managed-p) (bibtex-lsp--server))
      (add-hook 'completion-at-point-functions #'bibtex-lsp-complete -10 t)
    (remove-hook 'completion-at-point-functions #'bibtex-lsp-complete t)))

(defun bibtex-lsp--folder (server)
  "The folder of SERVER's paper: the first one in which it searches."
  (string-remove-prefix "--search=" (nth 1 (process-command (jsonrpc--process server)))))

;;; Renaming

(defun bibtex-lsp--open-mentions (&rest _)
  "Open the .tex files of the paper's folder, and of those in it, that mention the name at point: a rename changes only open ones."
  (let* ((server (bibtex-lsp--server))
         (folder (and server (bibtex-lsp--folder server)))
         (range (and server (jsonrpc-request server :textDocument/prepareRename (eglot--TextDocumentPositionParams))))
         (name (and range (buffer-substring-no-properties
                           (eglot--lsp-position-to-point (plist-get range :start))
                           (eglot--lsp-position-to-point (plist-get range :end))))))
    (when name
      (dolist (file (seq-mapcat (lambda (pattern) (file-expand-wildcards (expand-file-name pattern folder)))
                                '("*.tex" "*/*.tex")))
        (when (and (file-readable-p file) ; not a lock
                   (not (find-buffer-visiting file))
                   (with-temp-buffer (insert-file-contents file) (search-forward name nil t)))
          (find-file-noselect file))))))

(defun bibtex-lsp--save-renamed (edit &rest _)
  "Save the .aux files that EDIT has changed.  The server doesn't follow their buffers, and LaTeX writes them anew."
  (let ((server (bibtex-lsp--server)))
    (seq-do (lambda (change)
              (let* ((file (eglot--uri-to-path (plist-get (plist-get change :textDocument) :uri)))
                     (buffer (find-buffer-visiting file)))
                (when (and server buffer)
                  (with-current-buffer buffer
                    (if (eglot-managed-p)
                        (eglot--signal-textDocument/didChange)
                      (when (and (string-suffix-p ".aux" file) (buffer-modified-p))
                        (let ((save-silently t)) (save-buffer))
                        (bibtex-lsp--changed server file)))))))
            (plist-get edit :documentChanges))))

;;; Links and folding

(defun bibtex-lsp--covering (method point)
  "Of the answer to METHOD for this document, the parts whose ranges have POINT in them or, for lines, its line."
  (let ((line (1- (line-number-at-pos point t))))
    (seq-filter (lambda (part)
                  (let ((range (plist-get part :range)))
                    (if range
                        (and (<= (eglot--lsp-position-to-point (plist-get range :start)) point)
                             (< point (eglot--lsp-position-to-point (plist-get range :end))))
                      (<= (plist-get part :startLine) line (plist-get part :endLine)))))
                (jsonrpc-request (bibtex-lsp--server) method (list :textDocument (eglot--TextDocumentIdentifier))))))

;;;###autoload
(defun bibtex-follow-link ()
  "Open the file that is named at point.  LaTeX takes the names in a chapter from the paper's folder."
  (interactive)
  (let* ((link (or (car (bibtex-lsp--covering :textDocument/documentLink (point))) (user-error "No file is named here")))
         (file (eglot--uri-to-path (plist-get link :target)))
         (inside (expand-file-name (file-relative-name file default-directory) (bibtex-lsp--folder (bibtex-lsp--server)))))
    (find-file (if (and (not (file-exists-p file)) (file-exists-p inside)) inside file))))

;;;###autoload
(defun bibtex-fold ()
  "Hide all lines but the first of the entry or function at point, or show them again."
  (interactive)
  (let* ((part (or (car (last (bibtex-lsp--covering :textDocument/foldingRange (point)))) (user-error "Nothing can be folded here")))
         (line (lambda (number) (save-restriction (widen) (goto-char (point-min)) (line-end-position (1+ number)))))
         (start (save-excursion (funcall line (plist-get part :startLine))))
         (end (save-excursion (funcall line (plist-get part :endLine))))
         (folds (seq-filter (lambda (one) (overlay-get one 'bibtex-lsp-fold)) (overlays-in start end))))
    (if folds
        (mapc #'delete-overlay folds)
      (let ((fold (make-overlay start end)))
        (overlay-put fold 'bibtex-lsp-fold t)
        (overlay-put fold 'invisible 'bibtex-lsp)
        (overlay-put fold 'isearch-open-invisible #'delete-overlay)
        (add-to-invisibility-spec '(bibtex-lsp . t))))))

(with-eval-after-load 'eglot
  (add-to-list 'eglot-server-programs `((bibtex-mode bibtex-style-mode ,@bibtex-lsp--tex-modes) . bibtex-lsp-contact))
  (setq eglot-extend-to-xref t)
  (add-hook 'eglot-managed-mode-hook #'bibtex-lsp--set-up)
  (add-hook 'project-find-functions #'bibtex-lsp--project 90)
  (advice-add 'eglot-rename :before #'bibtex-lsp--open-mentions)
  (advice-add 'eglot--apply-workspace-edit :after #'bibtex-lsp--save-renamed)
  ;; The server asks Eglot to watch files, but Eglot watches only the folders of the project's own files, and LaTeX's output
  ;; folder is often ignored.
  (cl-defmethod eglot-register-capability :after (server (_method (eql workspace/didChangeWatchedFiles)) id &rest _)
    (when (equal (plist-get (eglot--server-info server) :name) "bibtex-lsp")
      (bibtex-lsp--watch server (bibtex-lsp--watched server id))))
  (advice-add 'eglot--uri-to-path :around #'bibtex-lsp--learn)
  (advice-add 'eglot--path-to-uri :around #'bibtex-lsp--translate)
  ;; Diagnostics come after each change.
  (cl-defmethod eglot-handle-notification :after (server (_method (eql textDocument/publishDiagnostics)) &rest _)
    (bibtex-lsp--show-soon server)))

(provide 'bibtex-lsp)
;;; bibtex-lsp.el ends here
