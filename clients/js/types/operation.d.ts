export function isCount(it: any): boolean;
export function isText(it: any): any;
export function isOperation(it: any): any;
