;;; dired-listing.el --- edit listings of dired: names, modes and targets  -*- lexical-binding: t -*-

;;; Commentary:

;; In a file whose name ends in .dired the nine letters of a mode and all behind the date may be edited; all else is read only,
;; and no line is begun or ended.

;;; Code:

(defconst dired-listing-line
  "^\\(.\\{2\\}[-dl]\\)[-rwxsStT]\\{9\\}\\( +[0-9]+ +[^ \n]+ +[^ \n]+ +[0-9]+ [0-9-]\\{10\\} [0-9:]\\{5\\} \\)"
  "A line of a file; what is fixed in front of the mode, and between mode and name.")

(defvar dired-listing-mode-map
  (let ((map (make-sparse-keymap)))
    (dolist (key '("RET" "C-j" "C-o" "C-q C-j"))
      (define-key map (kbd key) #'undefined))
    map)
  "No key begins a line.")

(defun dired-listing--fix (from to &optional open)
  "Make the text between FROM and TO read only; with OPEN let text be typed behind it."
  (put-text-property from to 'read-only t)
  (when open
    (put-text-property (1- to) to 'rear-nonsticky '(read-only))))

;;;###autoload
(define-derived-mode dired-listing-mode text-mode "Listing"
  "Edit a listing of dired: names, modes and targets."
  (setq-local require-final-newline nil)
  (setq-local delete-trailing-lines nil)
  (setq-local before-save-hook (remq 'delete-trailing-whitespace (default-value 'before-save-hook)))
  (auto-fill-mode -1)
  (with-silent-modifications
    (save-excursion
      (goto-char (point-min))
      (while (not (eobp))
        (if (looking-at dired-listing-line)
            (progn
              (dired-listing--fix (match-beginning 1) (match-end 1) t)
              (dired-listing--fix (match-beginning 2) (match-end 2) t))
          (dired-listing--fix (point) (line-end-position)))
        (unless (= (line-end-position) (point-max))
          (dired-listing--fix (line-end-position) (1+ (line-end-position))))
        (forward-line))
      (unless (bobp)
        (put-text-property (point-min) (1+ (point-min)) 'front-sticky '(read-only))))))

;;;###autoload
(add-to-list 'auto-mode-alist '("\\.dired\\'" . dired-listing-mode))

(provide 'dired-listing)
;;; dired-listing.el ends here
