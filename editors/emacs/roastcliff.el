;;; roastcliff.el --- Write in a document of a Roastcliff host  -*- lexical-binding: t -*-

;; Package-Requires: ((emacs "27.1"))
;; Keywords: comm, text

;;; Commentary:

;; `M-x roastcliff' asks for the address of a document and opens it in a buffer.  What you write goes to the others as you
;; write, and what they write comes into the buffer, while you are linked; apart you go on, and all of it meets later.
;; `undo' takes back what you wrote, and nothing of what others wrote.  What the rules denied or undid is marked at its line
;; with the reason; `roastcliff-why' lists it, and `roastcliff-who' says who may do what.  Where the document was renewed while
;; you were apart, `roastcliff-left' lists what you wrote meanwhile, and `roastcliff-put-left' puts it in.
;;
;; A program beside the editor, `roastcliff follow', keeps the document and talks with the host.  This file and the program
;; say lines to one another: docs/FORMATS.md has them.  A place is counted in letters from the text's begin, from 0.

;;; Code:

(require 'cl-lib)
(require 'subr-x)

(defgroup roastcliff nil "Writing in documents of a Roastcliff host." :group 'comm)

(defconst roastcliff--top
  (expand-file-name "../.." (file-name-directory (file-truename (or load-file-name buffer-file-name default-directory))))
  "The folder of the repository that this file is of.")

(defcustom roastcliff-program
  (list (or (executable-find "roastcliff") (expand-file-name "roastcliff" roastcliff--top)) "follow")
  "The follower, as a list of words: usually this repository's front door."
  :type '(repeat string))

(defcustom roastcliff-folder
  (expand-file-name "roastcliff" (or (getenv "XDG_DATA_HOME") "~/.local/share"))
  "The folder of the documents' files."
  :type 'directory)

(defcustom roastcliff-delay 0.8
  "How many seconds a word that isn't ended waits, at most, before it goes out."
  :type 'number)

(defface roastcliff-undone '((t :inherit warning)) "What was denied or undone, and why.")

(defconst roastcliff--most-letters 15000
  "How many letters go out in one line at most: a line has 65,536 bytes.")

(defconst roastcliff--is-locked 10
  "The status with which a follower ends whose file another one has open.")

(defconst roastcliff--most-tries 10
  "How often a follower is started again whose file another one has open.")

(defconst roastcliff--patience 3
  "For how many seconds the text of a new document may be awaited with open buffer.")

(defconst roastcliff--nears '(20 10 5)
  "How many letters on each side tell where words belong, the first that do.")

(defconst roastcliff--no-letter "[^\0-\uD7FF\uE000-\U0010FFFF]"
  "What Emacs has as a letter and UTF-8 hasn't.")

(cl-defstruct (roastcliff--document (:constructor roastcliff--document-of) (:copier nil))
  "A document: its follower, what that knows of the buffer, and what it told."
  address file buffer process
  (rest "")                  ; what of a line has come
  (lines nil)                ; lines that came and aren't taken yet
  (is-busy nil)              ; whether lines are being taken
  (state 'opening)           ; opening, linked, apart or ended
  (is-open nil)              ; whether the buffer has the text
  (tick 0)                   ; when the buffer was as the follower takes it to be
  (shadow nil)               ; a buffer with the text that the follower takes this one to have
  (pending nil)              ; changes that aren't sent yet, the last in front: (AT OUT PUT)
  (seen 0)
  (sent nil)                 ; what was sent and isn't answered yet
  (refusals 0)               ; how often not all of that was made
  (timer nil)
  (rows nil)                 ; changes that came and aren't in the buffer yet, the last in front: (AT OUT PUT)
  (rows-reason nil)          ; why these came
  (reason nil)               ; why the next change comes, where it takes something back
  (undoing nil) (rows-undone 0)
  (marks nil)                ; what was denied or undone: (TEXT DEED WHY)
  (closed nil)               ; the host's words at a close
  (tries 0)                  ; how often it was started again
  (is-renewed nil)           ; whether it said that a new document has the place of this one
  (told nil)                 ; what it said is left of what was written here, the last in front
  (is-going-on nil)          ; whether the text of the new document is awaited
  (aside nil)                ; where the files of the old one are then
  (left nil)                 ; what is left of documents that were renewed
  (person 0)
  (people nil) (devices nil) (here nil)
  (rules (roastcliff--rules-of)))

(cl-defstruct (roastcliff--rules (:constructor roastcliff--rules-of) (:copier nil))
  "The rules, as the entries of the administrator make them."
  (version 0)
  (entries (make-hash-table))  ; (KIND WORDS ..), by version
  (was (make-hash-table))      ; the rule that an entry took away, by version
  (objects (list (cons "0" '("all"))))  ; the words of each object's extent: (OBJECT KIND WORDS ..)
  (groups nil)                 ; the users of each group: (GROUP USER ..)
  (list nil))                  ; the words of the rules: (PLACE SIGN USERS RIGHTS OBJECTS)

(defvar-local roastcliff--document nil "The document of this buffer.")

;; A document outlasts a change of the major mode.
(dolist (variable '(roastcliff--document roastcliff-mode))
  (put variable 'permanent-local t))
(dolist (hook '(roastcliff--changed roastcliff--command-ended roastcliff--leave))
  (put hook 'permanent-local-hook t))

(defvar-local roastcliff--is-taking nil "Whether what changes this buffer comes from others.")

;;;; Letters

(defun roastcliff--clean (text)
  "TEXT without what is no letter of UTF-8."
  (replace-regexp-in-string roastcliff--no-letter "\uFFFD" text t t))

(defun roastcliff--spelled (text)
  "TEXT as a line says it: a line end is \\n, a backslash is \\\\."
  (string-replace "\n" "\\n" (string-replace "\\" "\\\\" (roastcliff--clean text))))

(defun roastcliff--read (spelled)
  "The text that is SPELLED so."
  (if (string-search "\\" spelled)
      (mapconcat (lambda (part) (string-replace "\\n" "\n" part)) (split-string spelled "\\\\\\\\") "\\")
    spelled))

;;;; What was written is sent

(defun roastcliff--say (document line)
  "Say LINE to the follower of DOCUMENT."
  (let ((process (roastcliff--document-process document)))
    (when (process-live-p process)
      (process-send-string process (concat line "\n")))))

(defun roastcliff--parts (text)
  "TEXT in parts that a line has room for, at least one."
  (or (cl-loop for at from 0 below (length text) by roastcliff--most-letters
               collect (substring text at (min (length text) (+ at roastcliff--most-letters))))
      (list "")))

(defun roastcliff--say-replace (document at out put)
  "Say in DOCUMENT that PUT comes in place of OUT letters from place AT on."
  (unless (roastcliff--document-sent document)
    (setf (roastcliff--document-reason document) (roastcliff--document-rows-reason document)))
  (roastcliff--forget-rows document)
  (dolist (part (roastcliff--parts put))
    (roastcliff--say document (format "seen %d" (roastcliff--document-seen document)))
    (roastcliff--say document (format "replace %d %d%s" at (+ at out)
                                      (if (string-empty-p part) "" (concat " " (roastcliff--spelled part)))))
    (setf (roastcliff--document-sent document) (nconc (roastcliff--document-sent document) (list part)))
    (setq at (+ at (length part)) out 0)))

(defun roastcliff--put-in (buffer at out put)
  "Put in BUFFER the text PUT in place of OUT letters from place AT on."
  (with-current-buffer buffer
    (save-excursion
      (save-restriction
        (widen)
        (goto-char (1+ at))
        ;; What comes is put in front of what goes, so that a point behind that stays behind it.
        (insert put)
        (delete-region (point) (+ (point) out))))))

(defun roastcliff--joined (last at out put)
  "The change LAST with the next one, if they touch: OUT letters from AT by PUT."
  (pcase-let ((`(,last-at ,last-out ,last-put) last))
    (cond
     ((null last) nil)
     ((and (<= last-at at) (<= at (+ last-at (length last-put))))
      (let* ((from (- at last-at))
             (in (min out (- (length last-put) from))))
        (list last-at (+ last-out (- out in))
              (concat (substring last-put 0 from) put (substring last-put (+ from in))))))
     ((and (< at last-at) (= (+ at out) last-at))
      (list at (+ last-out out) (concat put last-put))))))

(defun roastcliff--changed (begin end out)
  "Note that OUT letters were replaced by those from BEGIN to END."
  (when (and roastcliff--document (not roastcliff--is-taking))
    (let* ((document roastcliff--document)
           (put (buffer-substring-no-properties begin end))
           (at (- begin 1))
           (pending (roastcliff--document-pending document))
           (joined (roastcliff--joined (car pending) at out put)))
      (setf (roastcliff--document-pending document)
            (if joined (cons joined (cdr pending)) (cons (list at out put) pending)))
      (unless (roastcliff--document-timer document)
        (setf (roastcliff--document-timer document)
              (run-with-timer roastcliff-delay nil #'roastcliff--send document))))))

(defun roastcliff--difference (shadow)
  "The change that makes of the text of SHADOW that of this buffer, if any."
  (let* ((case-fold-search nil)
         (size (1- (point-max)))
         (old-size (with-current-buffer shadow (1- (point-max))))
         (found (compare-buffer-substrings shadow nil nil nil nil nil)))
    (unless (zerop found)
      (let ((front (1- (abs found))) (end 0))
        (while (and (< (+ front end) (min size old-size))
                    (eq (char-before (- (point-max) end)) (with-current-buffer shadow (char-before (- (point-max) end)))))
          (cl-incf end))
        (list front (- old-size front end)
              (buffer-substring-no-properties (1+ front) (- (point-max) end)))))))

(defun roastcliff--say-change (document change)
  "Say a CHANGE of DOCUMENT, and take it into what the follower is taken to know."
  (pcase-let ((`(,at ,out ,put) change))
    (roastcliff--say-replace document at out put)
    (roastcliff--put-in (roastcliff--document-shadow document) at out (roastcliff--clean put))))

(defun roastcliff--clean-buffer ()
  "Clean this buffer of what is no letter of UTF-8."
  (save-excursion
    (let ((roastcliff--is-taking t))
      (goto-char (point-min))
      (while (re-search-forward roastcliff--no-letter nil t)
        (replace-match "\uFFFD" t t)))))

(defun roastcliff--send (document)
  "Send what was written in the buffer of DOCUMENT since it was sent last."
  (when (roastcliff--document-timer document)
    (cancel-timer (roastcliff--document-timer document))
    (setf (roastcliff--document-timer document) nil))
  (when (buffer-live-p (roastcliff--document-buffer document))
    (with-current-buffer (roastcliff--document-buffer document)
      (when (and (roastcliff--document-is-open document)
                 (not (roastcliff--document-is-renewed document))
                 (/= (buffer-chars-modified-tick) (roastcliff--document-tick document))
                 (process-live-p (roastcliff--document-process document)))
        (roastcliff--send-pending document)))))

(defun roastcliff--send-pending (document)
  "Send the changes of DOCUMENT that are known, and what differs nevertheless."
  (save-restriction
    (widen)
    (let ((changes (nreverse (roastcliff--document-pending document))))
      (setf (roastcliff--document-pending document) nil)
      (dolist (change changes)
        (roastcliff--say-change document change))
      (when (cl-some (lambda (change) (string-match-p roastcliff--no-letter (nth 2 change))) changes)
        (roastcliff--clean-buffer)))
    (when-let ((change (roastcliff--difference (roastcliff--document-shadow document))))
      (roastcliff--say-change document change))
    (setf (roastcliff--document-tick document) (buffer-chars-modified-tick))))

(defun roastcliff--command-ended ()
  "Send what a command wrote, unless it is a word that isn't ended."
  (when-let ((document roastcliff--document))
    (when (and (roastcliff--document-pending document)
               (not (and (memq this-command '(self-insert-command delete-backward-char backward-delete-char-untabify))
                         (char-before)
                         (not (memq (char-syntax (char-before)) '(?\s ?>))))))
      (roastcliff--send document))))

(defun roastcliff--show-kept (document)
  "Show as unmodified what is kept of DOCUMENT."
  (when (and (roastcliff--document-is-open document)
             (null (roastcliff--document-sent document))
             (null (roastcliff--document-pending document)))
    (with-current-buffer (roastcliff--document-buffer document)
      (restore-buffer-modified-p nil))))

;;;; Undo
;;
;; A row of changes of others is carried over the entries of `buffer-undo-list', so that `undo' takes back what was written
;; here and nothing else.  A step is (AT OUT PUT): from place AT on OUT letters go, or PUT letters come; one of them is 0.

(defun roastcliff--cross-put (put out)
  "The steps of PUT and of OUT, each after the other.
The first puts letters in, the second takes some out."
  (pcase-let* ((`(,at ,_ ,size) put) (`(,from ,count ,_) out) (end (+ from count)))
    (cond
     ((<= at from) (cons (list put) (list (list (+ from size) count 0))))
     ((>= at end) (cons (list (list (- at count) 0 size)) (list out)))
     (t (cons (list (list from 0 size))
              (list (list from (- at from) 0) (list (+ from size) (- end at) 0)))))))

(defun roastcliff--cross-out (one other)
  "The steps of ONE after OTHER: both take letters out."
  (pcase-let* ((`(,at ,out ,_) one) (`(,from ,count ,_) other)
               (common (max 0 (- (min (+ at out) (+ from count)) (max at from))))
               (before (max 0 (- (min at (+ from count)) from))))
    (when (> out common)
      (list (list (- at before) (- out common) 0)))))

(defun roastcliff--cross-two (one other)
  "The steps of ONE and of OTHER, each after the other.
They were meant for one text."
  (pcase-let ((`(,at ,_ ,put) one) (`(,other-at ,_ ,other-put) other))
    (cond
     ((and (> put 0) (> other-put 0))
      (if (<= at other-at)
          (cons (list one) (list (list (+ other-at put) 0 other-put)))
        (cons (list (list (+ at other-put) 0 put)) (list other))))
     ((> put 0) (roastcliff--cross-put one other))
     ((> other-put 0) (let ((crossed (roastcliff--cross-put other one))) (cons (cdr crossed) (car crossed))))
     (t (cons (roastcliff--cross-out one other) (roastcliff--cross-out other one))))))

(defun roastcliff--cross (ones others)
  "The steps of ONES and of OTHERS, each after the other."
  (cond
   ((or (null ones) (null others)) (cons ones others))
   ((and (null (cdr ones)) (null (cdr others))) (roastcliff--cross-two (car ones) (car others)))
   ((cdr ones)
    (let* ((first (roastcliff--cross (list (car ones)) others))
           (rest (roastcliff--cross (cdr ones) (cdr first))))
      (cons (append (car first) (car rest)) (cdr rest))))
   (t
    (let* ((first (roastcliff--cross ones (list (car others))))
           (rest (roastcliff--cross (car first) (cdr others))))
      (cons (car rest) (append (cdr first) (cdr rest)))))))

(defun roastcliff--moved (place steps)
  "Where the position PLACE of a buffer is after STEPS."
  (dolist (step steps place)
    (pcase-let* ((`(,at ,out ,put) step) (start (1+ at)))
      (setq place (cond ((< place start) place)
                        ((> put 0) (if (> place start) (+ place put) place))
                        (t (max start (- place out))))))))

(defun roastcliff--step-of (entry)
  "The step that an ENTRY of the list of undo makes, nil where it changes no text."
  (pcase entry
    (`(,(and begin (pred integerp)) . ,(and end (pred integerp))) (list (1- begin) (- end begin) 0))
    (`(,(and text (pred stringp)) . ,(and place (pred integerp))) (list (1- (abs place)) 0 (length text)))))

(defun roastcliff--put-steps (cell text steps)
  "Make of the entry in CELL that of STEPS, which put in TEXT or take letters out."
  (let ((entries (mapcar (lambda (step)
                           (pcase-let ((`(,at ,out ,_) step))
                             (if text (cons text (1+ at)) (cons (1+ at) (+ 1 at out)))))
                         steps)))
    (setcar cell (or (car entries) '(apply cdr nil)))
    (setcdr cell (append (cdr entries) (cdr cell)))))

(defun roastcliff--carry-entry (cell steps)
  "Carry the entry of undo in CELL over STEPS of others, and give these after it."
  (let* ((entry (car cell)) (step (roastcliff--step-of entry)))
    (pcase entry
      ((guard (and step (= 0 (nth 1 step) (nth 2 step)))) steps)
      ((guard step)
       (let ((crossed (roastcliff--cross (list step) steps)))
         (roastcliff--put-steps cell (and (stringp (car entry)) (car entry)) (car crossed))
         (cdr crossed)))
      ((pred integerp) (setcar cell (roastcliff--moved entry steps)) steps)
      (`(nil ,property ,value ,begin . ,end)
       (setcar cell `(nil ,property ,value ,(roastcliff--moved begin steps) . ,(roastcliff--moved end steps)))
       steps)
      (`(apply ,(and delta (pred integerp)) ,begin ,end . ,call)
       (setcar cell `(apply ,delta ,(roastcliff--moved begin steps) ,(roastcliff--moved end steps) . ,call))
       steps)
      (_ steps))))

(defun roastcliff--carry-inserted (entry at out by)
  "Carry ENTRY, that text was inserted, over a step of OUT letters at AT.
That step moves what is behind it BY so many letters.  Give the place of the
step after it, nil where they meet."
  (let ((begin (1- (car entry))) (end (1- (cdr entry))))
    (cond
     ((<= end at) (- at (- end begin)))
     ((>= begin (+ at out))
      (setcar entry (+ (car entry) by))
      (setcdr entry (+ (cdr entry) by))
      at))))

(defun roastcliff--carry-deleted (entry at out by)
  "The same of ENTRY, that text was deleted: AT, OUT and BY are as there."
  (let* ((place (cdr entry)) (before (1- (abs place))))
    (cond
     ((<= before at) (+ at (length (car entry))))
     ((>= before (+ at out))
      (setcdr entry (if (< place 0) (- place by) (+ place by)))
      at))))

(defun roastcliff--carried-place (entry at out by)
  "The place of a step behind ENTRY, which is changed in place, nil if they meet.
The step takes OUT letters at AT, and moves what is behind it BY so many."
  (let ((first (car-safe entry)))
    (cond
     ((and (integerp first) (integerp (cdr entry))) (roastcliff--carry-inserted entry at out by))
     ((and (stringp first) (integerp (cdr entry))) (roastcliff--carry-deleted entry at out by))
     ((or (null entry) (markerp first) (eq first t)) at))))

(defun roastcliff--carry-far (cell at out put)
  "Carry the entries of undo from CELL on over a step (AT OUT PUT) of others.
It ends at the first that meets the step.  Give the steps that become of it
there, each as (CELL AT OUT PUT), with the cell from which it goes on."
  (let ((by (- put out)) (place at))
    (while (and cell (setq place (roastcliff--carried-place (car cell) at out by)))
      (setq at place cell (cdr cell)))
    (when cell
      (let ((next (cdr cell)))
        (mapcar (lambda (step) (cons next step)) (roastcliff--carry-entry cell (list (list at out put))))))))

(defun roastcliff--carry-step (at out put)
  "Carry what undo knows of this buffer over a step (AT OUT PUT) of others."
  (let ((left (list (list buffer-undo-list at out put))))
    (while left
      (setq left (append (apply #'roastcliff--carry-far (car left)) (cdr left))))))

(defun roastcliff--carry-undo (at out put)
  "Carry what undo knows of this buffer over a change of others.
That puts PUT letters in place of OUT letters from AT on."
  (when (consp buffer-undo-list)
    (when (> out 0)
      (roastcliff--carry-step at out 0))
    (when (> put 0)
      (roastcliff--carry-step at 0 put))))

;; A file that isn't compiled has at least these compiled: a change of others passes thousands of entries.
(dolist (function '(roastcliff--carry-inserted roastcliff--carry-deleted roastcliff--carried-place roastcliff--carry-far))
  (unless (byte-code-function-p (symbol-function function))
    (byte-compile function)))

;;;; What comes

(defun roastcliff--fill (buffer text)
  "Make TEXT that of BUFFER."
  (with-current-buffer buffer
    (erase-buffer)
    (insert text)))

(defun roastcliff--take-text (document spelled)
  "The whole text of DOCUMENT comes, SPELLED."
  (let ((text (roastcliff--read spelled)) (roastcliff--is-taking t) (inhibit-read-only t))
    (if (roastcliff--document-is-going-on document)
        (roastcliff--show-renewed document text)
      (roastcliff--fill (roastcliff--document-shadow document) text)
      (roastcliff--fill (current-buffer) text)
      (goto-char (point-min))
      (roastcliff--tell-left document nil))
    (roastcliff--forget-rows document)
    (setq buffer-undo-list nil buffer-read-only nil)
    (setf (roastcliff--document-is-open document) t
          (roastcliff--document-tick document) (buffer-chars-modified-tick)
          (roastcliff--document-seen document) 0
          (roastcliff--document-sent document) nil
          (roastcliff--document-pending document) nil)
    (restore-buffer-modified-p nil)))

(defun roastcliff--take-replaced (document rest)
  "A range of DOCUMENT was replaced, or not all of it, as REST says."
  (pop (roastcliff--document-sent document))
  (when (string-match " but \\(.*\\)" rest)
    (let ((answer (match-string 1 rest)))
      (cl-incf (roastcliff--document-refusals document))
      (setf (roastcliff--document-reason document) (cons 'denied answer))
      (message "roastcliff: not written: %s" (roastcliff--refusal document answer))))
  (roastcliff--show-kept document))

(defun roastcliff--take-changed (document rest)
  "A change of DOCUMENT comes, as REST says.
One that comes before what was sent is answered was meant for another text,
and comes again."
  (when (roastcliff--document-is-open document)
    (roastcliff--send document)
    (when (> (roastcliff--document-rows-undone document) 0)
      (cl-decf (roastcliff--document-rows-undone document))
      (setf (roastcliff--document-reason document) (roastcliff--document-undoing document)))
    (unless (roastcliff--document-sent document)
      (roastcliff--keep-row document rest))))

(defun roastcliff--keep-row (document rest)
  "Keep the change of DOCUMENT that REST says, until all of them are made."
  (unless (equal (roastcliff--document-reason document) (roastcliff--document-rows-reason document))
    (roastcliff--show-rows document))
  (when (string-match "\\`\\([0-9]+\\) \\([0-9]+\\) ?" rest)
    (let* ((at (string-to-number (match-string 1 rest)))
           (out (string-to-number (match-string 2 rest)))
           (put (roastcliff--read (substring rest (match-end 0)))))
      (push (list at out put) (roastcliff--document-rows document))))
  (setf (roastcliff--document-rows-reason document) (roastcliff--document-reason document)
        (roastcliff--document-reason document) nil))

(defun roastcliff--show-rows (document)
  "Make the changes of DOCUMENT that came in its buffer."
  (when (roastcliff--document-rows document)
    (roastcliff--send document)
    (let ((rows (reverse (roastcliff--document-rows document)))
          (reason (roastcliff--document-rows-reason document)))
      (cl-incf (roastcliff--document-seen document) (length rows))
      (roastcliff--forget-rows document)
      (pcase-dolist (`(,at ,out ,put) rows)
        (roastcliff--show-row document at out put reason))
      (roastcliff--show-kept document))))

(defun roastcliff--forget-rows (document)
  "Leave out the changes of DOCUMENT that came and aren't in its buffer yet."
  (setf (roastcliff--document-rows document) nil
        (roastcliff--document-rows-reason document) nil))

(defun roastcliff--alike (one other)
  "How many letters ONE and OTHER begin with alike."
  (let ((found (compare-strings one nil nil other nil nil)))
    (if (eq found t) (length one) (1- (abs found)))))

(defun roastcliff--show-row (document at out put reason)
  "Make a change in DOCUMENT: PUT in place of OUT letters from AT on, for a REASON."
  (save-restriction
    (widen)
    (let* ((gone (buffer-substring-no-properties (1+ at) (+ 1 at out)))
           (front (roastcliff--alike gone put))
           (end (roastcliff--alike (reverse (substring gone front)) (reverse (substring put front)))))
      (roastcliff--make-row document (+ at front)
                            (substring gone front (- (length gone) end))
                            (substring put front (- (length put) end))
                            reason))))

(defun roastcliff--make-row (document at gone put reason)
  "Put in DOCUMENT the text PUT in place of GONE at AT, and mark it for a REASON."
  (let ((roastcliff--is-taking t) (buffer-undo-list t) (inhibit-read-only t) (deactivate-mark nil))
    (roastcliff--put-in (current-buffer) at (length gone) put))
  (roastcliff--put-in (roastcliff--document-shadow document) at (length gone) put)
  (roastcliff--carry-undo at (length gone) (length put))
  (setf (roastcliff--document-tick document) (buffer-chars-modified-tick))
  (when reason
    (roastcliff--mark document (1+ at) gone put reason)))

(defun roastcliff--take-undone (document rest)
  "How many edits of DOCUMENT the last entry undid, and in how many rows, by REST."
  (pcase-let ((`(,edits ,rows) (split-string rest " ")))
    (let ((undoing (cons 'undone (roastcliff--rules-version (roastcliff--document-rules document)))))
      (setf (roastcliff--document-undoing document) undoing
            (roastcliff--document-rows-undone document) (string-to-number rows))
      (message "roastcliff: %s %s undone: %s" edits (if (equal edits "1") "edit was" "edits were")
               (roastcliff--why document undoing)))))

(defun roastcliff--take-linked (document rest)
  "The host let DOCUMENT in, as REST says."
  (setf (roastcliff--document-state document) 'linked
        (roastcliff--document-tries document) 0
        (roastcliff--document-person document) (string-to-number (nth 1 (split-string rest " "))))
  (force-mode-line-update))

(defun roastcliff--take-person (document rest)
  "A person of DOCUMENT, as REST says: PERSON ROLE NAME."
  (when (string-match "\\`\\([0-9]+\\) \\([a-z]+\\) \\(.*\\)" rest)
    (push (list (string-to-number (match-string 1 rest)) (match-string 2 rest) (match-string 3 rest))
          (roastcliff--document-people document))))

(defun roastcliff--numbers (words)
  "The numbers that stand in WORDS."
  (mapcar #'string-to-number (split-string words " " t)))

(defun roastcliff--take-device (document rest)
  "A device of DOCUMENT, as REST says: SITE PERSON, and closed behind them where it was closed."
  (let ((numbers (roastcliff--numbers rest)))
    (push (cons (nth 0 numbers) (nth 1 numbers)) (roastcliff--document-devices document))))

(defun roastcliff--take (document line)
  "Take a LINE of the follower of DOCUMENT."
  (let* ((space (string-search " " line))
         (rest (if space (substring line (1+ space)) "")))
    (pcase (substring line 0 space)
      ("text" (roastcliff--take-text document rest))
      ("replaced" (roastcliff--take-replaced document rest))
      ("changed" (roastcliff--take-changed document rest))
      ("entry" (roastcliff--take-entry (roastcliff--document-rules document) (split-string rest " ")))
      ("undone" (roastcliff--take-undone document rest))
      ("linked" (roastcliff--take-linked document rest))
      ("apart" (setf (roastcliff--document-state document) 'apart) (force-mode-line-update))
      ("closed" (setf (roastcliff--document-closed document) rest) (message "roastcliff: the host closed the link: %s" rest))
      ("renewed" (setf (roastcliff--document-is-renewed document) t))
      ("left" (push (roastcliff--read rest) (roastcliff--document-told document)))
      ("people" (setf (roastcliff--document-people document) nil (roastcliff--document-devices document) nil))
      ("person" (roastcliff--take-person document rest))
      ("device" (roastcliff--take-device document rest))
      ("here" (setf (roastcliff--document-here document) (roastcliff--numbers rest)))
      ("told" (message "roastcliff: the host did not take an edit: %s" rest))
      ;; What is written as an error comes among the lines.
      ((or "quick:" "roastcliff:" "usage:") (message "%s" line)))))

(defun roastcliff--take-all (document)
  "Take the lines of DOCUMENT that have come."
  (unless (or (roastcliff--document-is-busy document) (not (buffer-live-p (roastcliff--document-buffer document))))
    (setf (roastcliff--document-is-busy document) t)
    (unwind-protect
        (with-current-buffer (roastcliff--document-buffer document)
          (while (roastcliff--document-lines document)
            (roastcliff--take document (pop (roastcliff--document-lines document))))
          (roastcliff--show-rows document))
      (setf (roastcliff--document-is-busy document) nil))))

(defun roastcliff--filter (document some)
  "Take SOME letters of the follower of DOCUMENT."
  (let ((lines (split-string (concat (roastcliff--document-rest document) some) "\n")))
    (setf (roastcliff--document-rest document) (car (last lines))
          (roastcliff--document-lines document) (nconc (roastcliff--document-lines document) (butlast lines)))
    (roastcliff--take-all document)))

;;;; The rules

(defun roastcliff--insert-rule (rules place rule)
  "Put RULE at PLACE of the list of RULES."
  (let ((list (roastcliff--rules-list rules)))
    (setf (roastcliff--rules-list rules) (append (seq-take list place) (list rule) (seq-drop list place)))))

(defun roastcliff--delete-rule (rules place version)
  "Take the rule at PLACE out of the list of RULES, by the entry of VERSION."
  (let ((list (roastcliff--rules-list rules)))
    (puthash version (nth place list) (roastcliff--rules-was rules))
    (setf (roastcliff--rules-list rules) (append (seq-take list place) (seq-drop list (1+ place))))))

(defun roastcliff--add-member (rules group user)
  "Put USER into GROUP of RULES."
  (push user (alist-get group (roastcliff--rules-groups rules) nil nil #'equal)))

(defun roastcliff--delete-member (rules group user)
  "Take USER out of GROUP of RULES."
  (let ((users (alist-get group (roastcliff--rules-groups rules) nil nil #'equal)))
    (setf (alist-get group (roastcliff--rules-groups rules) nil nil #'equal) (remove user users))))

(defun roastcliff--take-entry (rules words)
  "Take an entry into RULES, which comes once or again, as WORDS: VERSION OP."
  (pcase-let* ((`(,number . ,op) words) (version (string-to-number number)))
    (when (= version (1+ (roastcliff--rules-version rules)))
      (setf (roastcliff--rules-version rules) version)
      (puthash version op (roastcliff--rules-entries rules))
      (pcase op
        (`("addauth" . ,rule) (roastcliff--insert-rule rules (string-to-number (car rule)) rule))
        (`("delauth" ,place) (roastcliff--delete-rule rules (string-to-number place) version))
        (`("addobj" ,object . ,extent) (setf (alist-get object (roastcliff--rules-objects rules) nil nil #'equal) extent))
        (`("delobj" ,object) (setf (alist-get object (roastcliff--rules-objects rules) nil t #'equal) nil))
        ((or `("addgroup" ,group) `("delgroup" ,group)) (setf (alist-get group (roastcliff--rules-groups rules) nil t #'equal) nil))
        (`("addmember" ,group ,user) (roastcliff--add-member rules group user))
        (`("delmember" ,group ,user) (roastcliff--delete-member rules group user))))))

(defun roastcliff--person (document person)
  "What PERSON is called, by number, in DOCUMENT."
  (let ((known (assq person (roastcliff--document-people document))))
    (if known (nth 2 known) (format "group %d" person))))

(defun roastcliff--user (document user)
  "Who USER of the rules is in DOCUMENT: the person whose device it is."
  (let ((device (assq user (roastcliff--document-devices document))))
    (cond ((zerop user) "the administrator")
          (device (roastcliff--person document (cdr device)))
          (t (format "user %d" user)))))

(defun roastcliff--users (document word)
  "Who WORD of a rule of DOCUMENT names."
  (let ((numbers (mapcar #'string-to-number (split-string (string-remove-prefix "@" word) ","))))
    (cond ((equal word "all") "everybody")
          ((string-prefix-p "@" word) (mapconcat (lambda (it) (roastcliff--person document it)) numbers ", "))
          (t (mapconcat (lambda (it) (roastcliff--user document it)) numbers ", ")))))

(defun roastcliff--where (document object sign)
  "Where the OBJECT of a rule of DOCUMENT is, which SIGN allows or forbids."
  (pcase (alist-get object (roastcliff--rules-objects (roastcliff--document-rules document)) nil nil #'equal)
    (`("all" . ,_) (if (equal sign "+") "everywhere" "anywhere"))
    (`("by" ,user) (format "in what %s wrote" (roastcliff--user document (string-to-number user))))
    (_ (format "in part %s" object))))

(defun roastcliff--deed (right)
  "What one may do by a RIGHT."
  (pcase right (?i "add words") (?d "delete") (?u "change words")))

(defun roastcliff--rule (document rule)
  "A RULE of DOCUMENT as a sentence."
  (pcase-let ((`(,_ ,sign ,users ,rights ,objects) rule))
    (let ((deeds (if (equal rights "idu") "write" (mapconcat #'roastcliff--deed rights " or ")))
          (where (mapconcat (lambda (it) (roastcliff--where document it sign)) (split-string objects ",") " or ")))
      (if (equal (list sign users) '("-" "all"))
          (format "nobody may %s %s" deeds where)
        (format "%s %s %s %s" (roastcliff--users document users) (if (equal sign "+") "may" "may not") deeds where)))))

(defun roastcliff--entry (document version)
  "What the entry of VERSION changed in DOCUMENT, as a sentence."
  (let ((rules (roastcliff--document-rules document)))
    (pcase (gethash version (roastcliff--rules-entries rules))
      (`("addauth" . ,rule) (format "the rule says: %s" (roastcliff--rule document rule)))
      (`("delauth" . ,_)
       (format "this rule was taken away: %s" (roastcliff--rule document (gethash version (roastcliff--rules-was rules)))))
      (`("delmember" ,_ ,user) (format "%s is no member any more" (roastcliff--user document (string-to-number user))))
      (`("deluser" ,user) (format "%s is no user any more" (roastcliff--user document (string-to-number user))))
      (op (format "the rules changed: %s" (string-join op " "))))))

(defun roastcliff--refusal (document answer)
  "Why an edit of DOCUMENT wasn't made, in words: ANSWER is as `denied 4 by 3'."
  (cond ((string-match "\\`denied [0-9]+ by \\([0-9]+\\)\\'" answer)
         (roastcliff--entry document (string-to-number (match-string 1 answer))))
        ((string-match-p "\\`denied [0-9]+ none\\'" answer) "no rule allows it")
        (t answer)))

(defun roastcliff--why (document reason)
  "A REASON of DOCUMENT in words."
  (if (eq (car reason) 'denied)
      (roastcliff--refusal document (cdr reason))
    (roastcliff--entry document (cdr reason))))

;;;; What was denied or undone is marked

(defun roastcliff--shown (text)
  "TEXT in one short row."
  (string-replace "\n" "⏎" (if (> (length text) 40) (concat (substring text 0 40) "…") text)))

(defun roastcliff--mark (document place gone put reason)
  "Mark the line at PLACE of DOCUMENT, where GONE went and PUT came, for a REASON."
  (let* ((text (if (string-empty-p gone) put gone))
         (deed (pcase (cons (car reason) (string-empty-p gone))
                 ('(denied . nil) "not written") ('(denied . t) "not deleted")
                 ('(undone . nil) "undone") (_ "came back")))
         (why (roastcliff--why document reason))
         (end (save-excursion (save-restriction (widen) (goto-char place) (line-end-position))))
         (overlay (make-overlay end end nil t nil))
         (words (format "  ✗ “%s” %s: %s" (roastcliff--shown text) deed why)))
    (push (list text deed why) (roastcliff--document-marks document))
    (overlay-put overlay 'roastcliff t)
    (overlay-put overlay 'before-string (propertize "✗" 'display '((margin left-margin) "✗")))
    ;; The point stands in front of the words, not behind them.
    (overlay-put overlay 'after-string (propertize words 'face 'roastcliff-undone 'cursor t))))

(defun roastcliff-why (&optional forget)
  "Show what was denied or undone in this document, and why.
With a prefix argument, FORGET it: the marks go."
  (interactive "P")
  (let ((marks (reverse (roastcliff--document-marks (roastcliff--here)))))
    (when forget
      (remove-overlays (point-min) (point-max) 'roastcliff t)
      (setf (roastcliff--document-marks (roastcliff--here)) nil))
    (with-help-window "*Roastcliff why*"
      (if (null marks)
          (princ "Nothing was denied or undone.\n")
        (pcase-dolist (`(,text ,deed ,why) marks)
          (princ (format "%s: %s\n    %s\n" deed why (string-replace "\n" "\n    " text))))))))

;;;; The document was renewed
;;
;; A new document has the place of the old one then.  The follower tells which pieces of what was written here the host hasn't,
;; and ends.  The files of the old document are put aside, and the device goes on in the new one.  What is left of the old one
;; stands in a file beside the document's, a line for each place, until it is put in or let go.

(defun roastcliff--read-left (file)
  "What is left of documents that had FILE and were renewed."
  (let ((kept (concat file ".left")) (coding-system-for-read 'utf-8-unix))
    (when (file-readable-p kept)
      (with-temp-buffer
        (insert-file-contents kept)
        (mapcar #'roastcliff--read (split-string (buffer-string) "\n" t))))))

(defun roastcliff--write-left (left file)
  "Write in FILE what is LEFT."
  (let ((coming (concat file ".new")) (coding-system-for-write 'utf-8-unix))
    (with-temp-file coming
      (dolist (text left)
        (insert (roastcliff--spelled text) "\n")))
    (rename-file coming file t)))

(defun roastcliff--keep-left (document)
  "Keep in a file what is left of DOCUMENT.  It is gone where nothing is."
  (let ((file (concat (roastcliff--document-file document) ".left")) (left (roastcliff--document-left document)))
    (condition-case nil
        (if left (roastcliff--write-left left file) (delete-file file))
      (file-error (message "roastcliff: this Emacs alone has what is left, since it can't be written to %s" file)))))

(defun roastcliff--join (text pieces)
  "Those of PIECES, in their order, that stand side by side in TEXT as one."
  (let ((joined nil) (at 0))
    (dolist (piece pieces (nreverse joined))
      (let ((found (and joined (string-search (concat (car joined) piece) text at))))
        (if found
            (setcar joined (concat (car joined) piece))
          (push piece joined))
        (setq at (or found 0))))))

(defun roastcliff--text ()
  "The whole text of this buffer."
  (save-restriction
    (widen)
    (buffer-substring-no-properties (point-min) (point-max))))

(defun roastcliff--take-unsent (document)
  "The changes of DOCUMENT that its follower wasn't told of."
  (save-restriction
    (widen)
    (let ((changes (nreverse (roastcliff--document-pending document)))
          (shadow (roastcliff--document-shadow document)))
      (setf (roastcliff--document-pending document) nil)
      (pcase-dolist (`(,at ,out ,put) changes)
        (roastcliff--put-in shadow at out (roastcliff--clean put)))
      (when-let ((change (roastcliff--difference shadow)))
        (setq changes (append changes (list change))))
      (roastcliff--fill shadow (roastcliff--text))
      changes)))

(defun roastcliff--take-untaken (document)
  "What was written in DOCUMENT and its follower hasn't taken.
It didn't answer that, or wasn't told of it."
  (let ((unsent (mapcar (lambda (it) (roastcliff--clean (nth 2 it))) (roastcliff--take-unsent document))))
    (prog1 (remove "" (append (roastcliff--document-sent document) unsent))
      (setf (roastcliff--document-sent document) nil))))

(defun roastcliff--leave-behind (document told)
  "Keep what was TOLD as left of DOCUMENT, and what its follower hasn't taken.
The first has to be in the text."
  (let* ((text (roastcliff--text)) (shown (cl-remove-if-not (lambda (it) (string-search it text)) told)))
    (when-let ((pieces (append shown (roastcliff--take-untaken document))))
      (let ((left (roastcliff--document-left document)))
        (setf (roastcliff--document-left document)
              (append (butlast left) (roastcliff--join text (append (last left) pieces)))))
      (roastcliff--keep-left document))))

(defun roastcliff--names-aside (file)
  "Under which names documents are that had FILE and were renewed.
The first is free, and the others follow from the newest on."
  (let ((names (list (concat file ".renewed"))))
    (while (or (file-exists-p (car names)) (file-exists-p (concat (car names) ".device")))
      (push (format "%s.renewed%d" file (1+ (length names))) names))
    names))

(defun roastcliff--put-aside (file)
  "Put FILE under another name, and its device behind it, and give that name.
Where it breaks off the follower tells of the renewal once more."
  (let ((name (car (roastcliff--names-aside file))))
    (rename-file file name)
    (condition-case wrong
        (rename-file (concat file ".device") (concat name ".device"))
      (file-error
       (rename-file name file)
       (signal (car wrong) (cdr wrong))))
    name))

(defun roastcliff--device-of (file)
  "The device of FILE as an address has it, SITE.SECRET, nil where there is none."
  (let ((kept (concat file ".device")))
    (when (file-readable-p kept)
      (with-temp-buffer
        (insert-file-contents kept)
        (when (looking-at "device \\([0-9]+\\) \\([^ \n]+\\)$")
          (concat (match-string 1) "." (match-string 2)))))))

(defun roastcliff--address-again (address file)
  "The ADDRESS of a document by the device of FILE, which another one had."
  (concat (car (split-string address "#")) "#" (roastcliff--device-of file)))

(defun roastcliff--go-on (document)
  "Go on in the document that has the place of DOCUMENT.
This buffer shows the text of the old one until that of the other comes.  Who
types on types into the list of what is left."
  (roastcliff--leave-behind document (reverse (roastcliff--document-told document)))
  (let ((file (roastcliff--document-file document)))
    (condition-case wrong
        (let* ((address (roastcliff--address-again (roastcliff--document-address document) file))
               (aside (roastcliff--put-aside file)))
          (roastcliff--open-again document address aside))
      (file-error
       (setq buffer-read-only t)
       (message "roastcliff: %s can't be put aside, so the new document isn't opened: %s"
                (abbreviate-file-name file) (error-message-string wrong))))))

(defun roastcliff--open-again (document address aside)
  "Open in this buffer the document of ADDRESS, which has the place of DOCUMENT.
The files of that are ASIDE."
  (setq roastcliff--document
        (roastcliff--document-of
         :address address :file (roastcliff--document-file document) :buffer (current-buffer)
         :shadow (roastcliff--document-shadow document) :marks (roastcliff--document-marks document)
         :tries (roastcliff--document-tries document) :left (roastcliff--document-left document)
         :is-going-on t :aside aside))
  (run-with-timer roastcliff--patience nil #'roastcliff--await roastcliff--document)
  (roastcliff--fetch roastcliff--document))

(defun roastcliff--await (document)
  "Let nobody write in the buffer of DOCUMENT, if its text still didn't come."
  (when (and (roastcliff--document-is-going-on document) (buffer-live-p (roastcliff--document-buffer document)))
    (with-current-buffer (roastcliff--document-buffer document)
      (setq buffer-read-only t))))

(defun roastcliff--place-once (text words from)
  "Where WORDS stand in TEXT from FROM on, nil where more than once or not at all."
  (let ((at (string-search words text from)))
    (and at (not (string-search words text (1+ at))) at)))

(defun roastcliff--in-place (new old words near)
  "What stands in NEW where WORDS stand in OLD, by NEAR letters on each side.
Nil where it can't be said."
  (when-let* ((at (roastcliff--place-once old words 0))
              (front (substring old (max 0 (- at near)) at))
              (start (if (string-empty-p front) 0 (roastcliff--place-once new front 0)))
              (from (+ start (length front)))
              (behind (+ at (length words)))
              (back (substring old behind (min (length old) (+ behind near))))
              (end (if (string-empty-p back) (length new) (roastcliff--place-once new back from))))
    (substring new from end)))

(defun roastcliff--lacking (new old words)
  "What of WORDS, which stand in OLD, NEW lacks in their place.
Words that were written into a piece are told with the whole of it.  All of them
are lacking where it can't be said."
  (if-let ((there (cl-some (lambda (near) (roastcliff--in-place new old words near)) roastcliff--nears)))
      (let* ((end (roastcliff--alike (reverse there) (reverse words)))
             (rest (substring there 0 (- (length there) end)))
             (put (substring words 0 (- (length words) end)))
             (front (roastcliff--alike rest put))
             (put (substring put front)))
        (if (or (string-empty-p put) (string-search (substring rest front) put)) put words))
    words))

(defun roastcliff--show-renewed (document text)
  "Show TEXT, that of DOCUMENT, in place of that of the one whose place it has.
The point stays where it was, as near as TEXT allows.  The host may have taken
what it didn't say it had."
  (roastcliff--leave-behind document nil)
  (let ((old (roastcliff--text)) (place (point)) (buffer-undo-list t) (shadow (roastcliff--document-shadow document)))
    (roastcliff--fill shadow text)
    (save-restriction
      (widen)
      (unless (replace-buffer-contents shadow 2)
        (goto-char (min place (point-max)))))
    (setf (roastcliff--document-is-going-on document) nil
          (roastcliff--document-aside document) nil
          (roastcliff--document-left document)
          (remove "" (mapcar (lambda (it) (roastcliff--lacking text old it)) (roastcliff--document-left document))))
    (roastcliff--keep-left document)
    (roastcliff--tell-left document "the document was renewed")))

(defun roastcliff--tell-left (document happened)
  "Tell how much is left of DOCUMENT, behind what HAPPENED."
  (let* ((count (length (roastcliff--document-left document)))
         (left (and (> count 0)
                    (format "M-x roastcliff-left has %d %s that you wrote" count (if (= count 1) "piece" "pieces"))))
         (words (delq nil (list happened left))))
    (when words
      (message "roastcliff: %s" (string-join words "; ")))))

(defun roastcliff-left ()
  "Show what you wrote and the host didn't have when the document was renewed.
`roastcliff-put-left' puts it in, and `roastcliff-drop-left' lets it go."
  (interactive)
  (let* ((document (roastcliff--here)) (left (roastcliff--document-left document)) (number 0)
         (aside (nth 1 (roastcliff--names-aside (roastcliff--document-file document)))))
    (with-help-window "*Roastcliff left*"
      (princ (if left "You wrote this while the document was renewed:\n"
               "Nothing is left that you wrote while a document was renewed.\n"))
      (dolist (text left)
        (princ (format "%d. %s\n" (cl-incf number) (string-replace "\n" "⏎" text))))
      (when left
        (princ "`M-x roastcliff-put-left' puts it in at point, `M-x roastcliff-drop-left' lets it go.\n"))
      (when aside
        (princ (format "The old document is %s.\n" (abbreviate-file-name aside)))))))

(defun roastcliff--read-which (prompt default)
  "Which pieces are meant of those that are left, as read with PROMPT and DEFAULT."
  (let ((count (length (roastcliff--document-left (roastcliff--here)))))
    (when (zerop count)
      (user-error "Nothing is left"))
    (completing-read (format "%s which, 1 to %d, or all%s: " prompt count (if default (format " (default %s)" default) ""))
                     (cons "all" (mapcar #'number-to-string (number-sequence 1 count))) nil t nil nil default)))

(defun roastcliff--named-left (document which)
  "What is left of DOCUMENT and WHICH names: the number of a piece, or all."
  (let ((left (roastcliff--document-left document)) (number (string-to-number which)))
    (cond ((equal which "all") left)
          ((<= 1 number (length left)) (list (nth (1- number) left)))
          (t (user-error "Which? A number of the list, or all")))))

(defun roastcliff--let-go (document pieces)
  "Take PIECES off the list of what is left of DOCUMENT."
  (dolist (piece pieces)
    (let ((left (roastcliff--document-left document)))
      (setf (roastcliff--document-left document) (cl-remove piece left :test #'equal :count 1))))
  (roastcliff--keep-left document)
  (force-mode-line-update))

(defun roastcliff--tell-gone (document pieces deed)
  "Tell that PIECES were left of DOCUMENT, and their DEED."
  (let ((count (length pieces)))
    (roastcliff--tell-left document (format "%d %s %s" count (if (= count 1) "piece is" "pieces are") deed))))

(defun roastcliff--write-at-point (document text)
  "Write TEXT in DOCUMENT at point.  Give whether the rules allow it."
  (barf-if-buffer-read-only)
  (roastcliff--send document)
  (let ((refusals (roastcliff--document-refusals document)))
    (undo-boundary)
    (insert text)
    (undo-boundary)
    (roastcliff--send document)
    (roastcliff--wait-while (roastcliff--document-process document) (lambda () (roastcliff--document-sent document)))
    (and (null (roastcliff--document-sent document))
         (roastcliff--document-is-open document)
         (= refusals (roastcliff--document-refusals document)))))

(defun roastcliff--in-lines (texts)
  "TEXTS in one: each begins a line, but the first."
  (concat (mapconcat (lambda (it) (string-remove-suffix "\n" it)) (butlast texts) "\n")
          (and (cdr texts) "\n") (car (last texts))))

(defun roastcliff-put-left (which)
  "Put in at point what you wrote while the document was renewed.
WHICH is the number of a piece, as `roastcliff-left' shows it, or all."
  (interactive (list (roastcliff--read-which "Put in" "all")))
  (let* ((document (roastcliff--here)) (pieces (roastcliff--named-left document which)))
    (when (roastcliff--write-at-point document (roastcliff--in-lines pieces))
      (roastcliff--let-go document pieces)
      (roastcliff--tell-gone document pieces "put in"))))

(defun roastcliff-drop-left (which)
  "Let go what you wrote while the document was renewed.
WHICH is the number of a piece, as `roastcliff-left' shows it, or all."
  (interactive (list (roastcliff--read-which "Let go" nil)))
  (let* ((document (roastcliff--here)) (pieces (roastcliff--named-left document which)))
    (roastcliff--let-go document pieces)
    (roastcliff--tell-gone document pieces "let go")))

;;;; What is shown

(defun roastcliff--here ()
  "The document of this buffer."
  (or roastcliff--document (user-error "This buffer is no document of a host")))

(defun roastcliff--has-device (document person users)
  "Whether PERSON of DOCUMENT has a device among USERS of its rules."
  (cl-some (lambda (it) (eql person (alist-get (string-to-number it) (roastcliff--document-devices document)))) users))

(defun roastcliff--is-in (document person group)
  "Whether PERSON is in GROUP of the rules of DOCUMENT.
It is his own, or a device of his is a member."
  (let ((groups (roastcliff--rules-groups (roastcliff--document-rules document))))
    (or (eql person (string-to-number group))
        (roastcliff--has-device document person (alist-get group groups nil nil #'equal)))))

(defun roastcliff--is-for (document person word)
  "Whether the users WORD of a rule of DOCUMENT are PERSON or have a device of his."
  (let ((names (split-string (string-remove-prefix "@" word) ",")))
    (cond ((equal word "all") t)
          ((string-prefix-p "@" word) (cl-some (lambda (it) (roastcliff--is-in document person it)) names))
          (t (roastcliff--has-device document person names)))))

(defun roastcliff--is-everywhere (document objects)
  "Whether one of the OBJECTS of a rule of DOCUMENT is the whole text."
  (let ((all (roastcliff--rules-objects (roastcliff--document-rules document))))
    (cl-some (lambda (it) (equal (alist-get it all nil nil #'equal) '("all"))) (split-string objects ","))))

(defun roastcliff--may (document person right)
  "Whether PERSON has a RIGHT everywhere in DOCUMENT.
The first rule says it that is for him."
  (cl-loop for (_ sign users rights objects) in (roastcliff--rules-list (roastcliff--document-rules document))
           when (and (cl-find right rights) (roastcliff--is-everywhere document objects) (roastcliff--is-for document person users))
           return (equal sign "+")))

(defun roastcliff--may-words (document person)
  "What PERSON may do everywhere in DOCUMENT."
  (let ((rights (cl-remove-if-not (lambda (it) (roastcliff--may document person it)) '(?i ?d ?u))))
    (pcase (length rights)
      (3 "may write")
      (0 "may only read")
      (_ (concat "may " (mapconcat #'roastcliff--deed rights " and "))))))

(defun roastcliff--person-line (document known)
  "A line of a person KNOWN in DOCUMENT, and what he may do."
  (pcase-let ((`(,person ,role ,name) known))
    (format "  %s (%s%s%s) %s\n" name role
            (if (eql person (roastcliff--document-person document)) ", which is you" "")
            (if (cl-some (lambda (it) (eql person (alist-get it (roastcliff--document-devices document))))
                         (roastcliff--document-here document))
                ", is here" "")
            (roastcliff--may-words document person))))

(defun roastcliff-who ()
  "Show who may do what in this document."
  (interactive)
  (let* ((document (roastcliff--here)) (rules (roastcliff--document-rules document)) (number 0))
    (with-help-window "*Roastcliff who*"
      (princ (format "Who may do what, in version %d of the rules:\n" (roastcliff--rules-version rules)))
      (dolist (known (reverse (roastcliff--document-people document)))
        (princ (roastcliff--person-line document known)))
      (princ "The rules, of which the first that is for somebody and for the place decides:\n")
      (dolist (rule (roastcliff--rules-list rules))
        (princ (format "  %d. %s\n" (cl-incf number) (roastcliff--rule document rule)))))))

(defun roastcliff--lighter ()
  "How it stands with the document of this buffer."
  (if-let ((document roastcliff--document))
      (let ((state (roastcliff--document-state document)) (left (length (roastcliff--document-left document))))
        (format " Roastcliff:%s%s%s"
                (if (and (eq state 'linked) (roastcliff--document-is-going-on document)) 'opening state)
                (if (buffer-modified-p) ", not kept yet" "")
                (if (> left 0) (format ", %d left" left) "")))
    ""))

;;;; The follower

(defun roastcliff--start (document ended)
  "Start the follower of DOCUMENT.
When it has ended ENDED is called with the document and with the status."
  (setf (roastcliff--document-rest document) ""
        (roastcliff--document-process document)
        (make-process
         :name "roastcliff" :connection-type 'pipe
         ;; The end of Emacs by a signal isn't that of the follower, which has lines to read then.
         :command (append (and (executable-find "nohup") '("nohup")) roastcliff-program
                          (list (roastcliff--document-address document) (roastcliff--document-file document)))
         :coding 'utf-8-unix :noquery t
         :filter (lambda (_ some) (roastcliff--filter document some))
         :sentinel (lambda (process _)
                     (when (memq (process-status process) '(exit signal))
                       (roastcliff--when-taken document ended (process-exit-status process)))))))

(defun roastcliff--when-taken (document ended status)
  "Call ENDED with DOCUMENT and STATUS once all that its follower said is taken."
  (cond
   ((not (buffer-live-p (roastcliff--document-buffer document))))
   ((roastcliff--document-is-busy document)
    (run-with-timer 0.05 nil #'roastcliff--when-taken document ended status))
   (t (with-current-buffer (roastcliff--document-buffer document)
        (funcall ended document status)))))

(defun roastcliff--fetch (document)
  "Have all that the host has of DOCUMENT put in its file."
  (condition-case wrong
      (progn
        (roastcliff--start document #'roastcliff--fetched)
        (process-send-eof (roastcliff--document-process document)))
    (file-error
     (setf (roastcliff--document-closed document) (error-message-string wrong))
     (roastcliff--ended document -1))))

(defun roastcliff--fetched (document status)
  "All that the host had is in the file of DOCUMENT, or not, as STATUS says."
  (if (zerop status)
      (roastcliff--follow document)
    (roastcliff--ended document status)))

(defun roastcliff--follow (document)
  "Follow DOCUMENT, from its file on."
  (setf (roastcliff--document-address document) (car (split-string (roastcliff--document-address document) "#")))
  (roastcliff--start document #'roastcliff--ended)
  (roastcliff--say document "text")
  (roastcliff--say document "rules"))

(defun roastcliff--ended (document status)
  "The follower of DOCUMENT has ended with STATUS.
So nothing that is written would be kept."
  (let ((was-open (roastcliff--document-is-open document))
        (may-try (<= (cl-incf (roastcliff--document-tries document)) roastcliff--most-tries)))
    (setf (roastcliff--document-state document) 'ended
          (roastcliff--document-is-open document) nil)
    (cond
     ((and (roastcliff--document-is-renewed document) may-try) (roastcliff--go-on document))
     ((and (= status roastcliff--is-locked) (not was-open) may-try)
      (run-with-timer 0.5 nil #'roastcliff--follow-again document))
     (t (setq buffer-read-only t)
        (message "roastcliff: %s" (roastcliff--end-words document status))))))

(defun roastcliff--end-words (document status)
  "Why the follower of DOCUMENT ended, with STATUS."
  (let ((aside (roastcliff--document-aside document)))
    (string-join
     (delq nil (list (and aside (concat "the old document is " (abbreviate-file-name aside)))
                     (if (= status roastcliff--is-locked)
                         "the disk failed, or another program has this document open here"
                       (format "the follower ended with status %d" status))
                     (roastcliff--document-closed document)))
     ": ")))

(defun roastcliff--follow-again (document)
  "Follow DOCUMENT, if it is still there."
  (when (buffer-live-p (roastcliff--document-buffer document))
    (with-current-buffer (roastcliff--document-buffer document)
      (when (eq document roastcliff--document)
        (roastcliff--follow document)))))

(defun roastcliff--wait-while (process is-so)
  "Wait while IS-SO, for what PROCESS says, but for 3 seconds at most."
  (let ((last (+ (float-time) 3)))
    (while (and (funcall is-so) (process-live-p process) (< (float-time) last))
      (accept-process-output process 0.02))))

(defun roastcliff--end-follower (document process)
  "End PROCESS, the follower of DOCUMENT.
It ends once all is at the host, or at least in its file: what a lost link keeps
back goes out when the document is opened again."
  (when (roastcliff--document-is-open document)
    (setf (roastcliff--document-is-open document) nil)
    (roastcliff--wait-while process (lambda () (roastcliff--document-sent document)))
    (process-send-eof process)
    (roastcliff--wait-while process (lambda () (eq 'linked (roastcliff--document-state document)))))
  (delete-process process))

(defun roastcliff--leave (&optional at-once)
  "Send what was written, and end the follower: AT-ONCE by the end of its input."
  (when-let ((document roastcliff--document))
    (roastcliff--send document)
    (when (or (roastcliff--document-is-renewed document) (roastcliff--document-is-going-on document))
      (roastcliff--leave-behind document nil))
    (let ((process (roastcliff--document-process document)))
      (when (process-live-p process)
        (set-process-sentinel process #'ignore)
        (if at-once
            (process-send-eof process)
          (roastcliff--end-follower document process))))
    (when (buffer-live-p (roastcliff--document-shadow document))
      (kill-buffer (roastcliff--document-shadow document)))
    (setq roastcliff--document nil)))

(defvar roastcliff--may-wait nil
  "Whether Emacs ends by a command.
By a signal it isn't told of its children's ends any more, so that waiting for
one wouldn't end.")

(defun roastcliff--note-end ()
  "Note that Emacs ends by a command, which may go on."
  (setq roastcliff--may-wait t))

(defun roastcliff--leave-all ()
  "Leave all documents."
  (dolist (buffer (buffer-list))
    (with-current-buffer buffer
      (roastcliff--leave (not roastcliff--may-wait)))))

;;;; Commands

(defun roastcliff--write ()
  "Say that nothing has to be written: the follower keeps it."
  (when roastcliff--document
    (roastcliff--send roastcliff--document)
    (roastcliff--show-kept roastcliff--document)
    (message "The document is kept as you write")
    t))

(defvar roastcliff-mode-map
  (let ((map (make-sparse-keymap)))
    (define-key map [remap save-buffer] #'roastcliff-save)
    map)
  "Keys of a document.")

(defun roastcliff-save ()
  "Send what was written.  The follower keeps it as you write."
  (interactive)
  (roastcliff--write))

(define-minor-mode roastcliff-mode
  "Write in a document of a Roastcliff host.  `M-x roastcliff' opens one."
  :lighter (:eval (roastcliff--lighter))
  :keymap roastcliff-mode-map
  (if (not roastcliff-mode)
      (roastcliff--leave)
    (setq left-margin-width 2 buffer-read-only t)
    (add-hook 'after-change-functions #'roastcliff--changed nil t)
    (add-hook 'post-command-hook #'roastcliff--command-ended nil t)
    (add-hook 'kill-buffer-hook #'roastcliff--leave nil t)
    (add-hook 'kill-emacs-query-functions #'roastcliff--note-end)
    (add-hook 'kill-emacs-hook #'roastcliff--leave-all)))

(defun roastcliff--open (place address)
  "Open the document of ADDRESS in this buffer.
PLACE is the address without its secret."
  (make-directory roastcliff-folder t)
  (let* ((file (expand-file-name (replace-regexp-in-string "[^A-Za-z0-9.-]" "_" place) roastcliff-folder))
         (document (roastcliff--document-of
                    :address address :file file :buffer (current-buffer) :left (roastcliff--read-left file)
                    :shadow (generate-new-buffer " *roastcliff text*" t))))
    (with-current-buffer (roastcliff--document-shadow document)
      (setq buffer-undo-list t))
    (text-mode)
    (setq roastcliff--document document)
    (roastcliff-mode 1)
    (if (file-exists-p (concat file ".device"))
        (roastcliff--follow document)
      ;; The last end may have come before the device of a new document was there.
      (let ((aside (nth 1 (roastcliff--names-aside file))))
        (when (and aside (not (string-match-p "#." address)))
          (setf (roastcliff--document-address document) (roastcliff--address-again address aside))))
      (roastcliff--fetch document))))

;;;###autoload
(defun roastcliff (address)
  "Open the document at ADDRESS, as http://HOST:PORT/d/DOCUMENT/#SECRET, in a buffer."
  (interactive "sAddress: ")
  (unless (string-match "\\`http://\\([^/#]+\\(?:/[^#]*\\)?/d/[a-z0-9-]+\\)/?\\(?:#.*\\)?\\'" address)
    (user-error "An address is http://HOST:PORT/d/DOCUMENT/#SECRET: put d/DOCUMENT/ in front of an invitation's #"))
  (let ((place (match-string 1 address)))
    (pop-to-buffer-same-window (get-buffer-create (format "*roastcliff %s*" place)))
    (unless (and roastcliff--document (process-live-p (roastcliff--document-process roastcliff--document)))
      (roastcliff--leave)
      (roastcliff--open place address))
    (set-window-buffer nil (current-buffer))))

(provide 'roastcliff)
;;; roastcliff.el ends here
